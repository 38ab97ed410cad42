//! What the documents name is there: files, folders and functions; and what they show is printed.

use fir_tests::sheet::program::{root, run, Delivery};
use std::fs::{read_dir, read_to_string};
use std::process::Command;

const PAGES: [&str; 4] = [
    "README.md",
    "docs/CONTRIBUTING.md",
    "docs/DECISIONS.md",
    "docs/STATEMENTS.md",
];

/// Words, without what encloses or follows them.
fn names(text: &str) -> impl Iterator<Item = &str> {
    let words = text.split(|c: char| c.is_whitespace() || "`|()[],;\"".contains(c));
    words.map(|word| word.trim_end_matches(['.', ':']))
}

/// Where links lead, without what follows a #.
fn links(text: &str) -> impl Iterator<Item = &str> {
    let ends = text.split("](").skip(1);
    ends.map(|rest| rest.split([')', '#']).next().unwrap())
}

/// Not one that stands in every crate or in target/, nor one with a word in capitals for a name.
fn is_path(name: &str) -> bool {
    const PARTS: [&str; 5] = ["specs/", "src/", "proofs/", "must-fail/", "target/"];
    let stands = |part: &str| part.len() > 1 && part.bytes().all(|b| b.is_ascii_uppercase());
    let plain = |b: u8| b.is_ascii_alphanumeric() || b"/._*-".contains(&b);
    name.contains('/')
        && name.starts_with(|c: char| c == '.' || c.is_ascii_lowercase())
        && name.bytes().all(plain)
        && !PARTS.iter().any(|part| name.starts_with(part))
        && !name.split(['/', '.', '_']).any(stands)
}

fn is_there(path: &str) -> bool {
    let folder = path.split('*').next().unwrap();
    root().join(folder).exists() || root().join("crates").join(folder).exists()
}

/// `crate::function` or `crate::module::function`; what the kit has is not looked up.
fn has_function(name: &str) -> bool {
    let (first, last) = (name.split("::").next(), name.split("::").last());
    let source = root().join("crates").join(first.unwrap()).join("src");
    let Ok(files) = read_dir(source) else {
        return ["crate", "f64"].contains(&first.unwrap());
    };
    let wanted = ["(", "<"].map(|after| format!("fn {}{after}", last.unwrap()));
    files
        .map(|file| read_to_string(file.unwrap().path()).unwrap())
        .any(|text| wanted.iter().any(|start| text.contains(start)))
}

#[test]
fn paths_and_functions() {
    let [mut paths, mut functions] = [0; 2];
    for page in PAGES {
        let text = read_to_string(root().join(page)).unwrap();
        for name in names(&text) {
            if name.contains("::") {
                functions += 1;
                assert!(has_function(name), "{page}: no function {name}");
            } else if is_path(name) {
                paths += 1;
                assert!(is_there(name), "{page}: no file {name}");
            }
        }
        let folder = root().join(page);
        for link in links(&text).filter(|link| !link.is_empty()) {
            let there = folder.parent().unwrap().join(link).exists();
            assert!(there, "{page}: no {link} for a link");
        }
    }
    println!("{paths} paths, {functions} functions");
    assert!(paths > 300 && functions > 100, "{paths}, {functions}");
}

/// In the guide for contributors, names in backquotes that follow a file stand in it.
#[test]
fn names_that_follow_a_file() {
    let page = read_to_string(root().join("docs/CONTRIBUTING.md")).unwrap();
    let is_name = |word: &str| {
        let plain = |b: u8| b.is_ascii_alphanumeric() || b == b'-' || b == b'_';
        word.len() > 1 && word.bytes().all(plain) && !word.contains("NAME")
    };
    let mut checked = 0;
    for line in page.lines() {
        let mut file = None;
        for word in line.split('`').skip(1).step_by(2) {
            if is_path(word) {
                let crates = root().join("crates").join(word);
                let path = if crates.exists() {
                    crates
                } else {
                    root().join(word)
                };
                file = read_to_string(path).ok();
            } else if let Some(text) = file.as_ref().filter(|_| is_name(word)) {
                checked += 1;
                assert!(text.contains(word), "no {word} where it should be: {line}");
            }
        }
    }
    assert!(checked > 12, "{checked}");
}

/// README's commands print what stands below them.
#[test]
fn shown_output() {
    let page = read_to_string(root().join("README.md")).unwrap();
    let mut shown = 0;
    for part in page.split("\n    $ ").skip(1) {
        let (line, rest) = part.split_once('\n').unwrap();
        let below = rest.lines().take_while(|line| line.starts_with("    "));
        let wanted: Vec<&str> = below.map(|line| &line[4..]).collect();
        let mut shell = Command::new("bash");
        shell.args(["-c", line]).current_dir(root());
        let ended = run(&mut shell, b"", Delivery::AtOnce);
        let printed = String::from_utf8(ended.out).unwrap();
        assert_eq!(printed.lines().collect::<Vec<_>>(), wanted, "{line}");
        shown += 1;
    }
    assert_eq!(shown, 4);
}
