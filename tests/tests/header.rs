//! include/fir.h beside what it speaks of: the Rattle functions, the table of refusals, the archive.

use fir_tests::sheet::program::{root, run, Delivery};
use std::collections::{BTreeMap, BTreeSet};
use std::fs::{read_dir, read_to_string};
use std::process::Command;

fn text(path: &str) -> String {
    read_to_string(root().join(path)).unwrap()
}

/// Every function with what stands between its parentheses, where it is declared so.
fn functions(text: &str, before: &str) -> BTreeMap<String, String> {
    let mut found = BTreeMap::new();
    for part in text.split(before).skip(1) {
        let (name, rest) = part.split_once('(').unwrap();
        let inside = rest.split_once(')').unwrap().0;
        let one_line = inside.split_whitespace().collect::<Vec<_>>().join(" ");
        let parameters = one_line.trim_end_matches(',').to_string();
        assert!(found.insert(name.trim().to_string(), parameters).is_none());
    }
    found
}

/// The types of C's parameters.
fn c_types(parameters: &str) -> Vec<String> {
    let kind = |parameter: &str| {
        let end = parameter.rfind([' ', '*']).unwrap() + 1;
        parameter[..end].trim().to_string()
    };
    parameters.split(',').map(kind).collect()
}

/// What C has for a type of Rattle: a slice is a pointer and a length.
fn types_for_c(parameters: &str) -> Vec<String> {
    let number = |name: &str| match name {
        "usize" => "size_t".to_string(),
        "f64" => "double".to_string(),
        name if name.starts_with('u') => format!("uint{}_t", &name[1..]),
        name => format!("int{}_t", &name[1..]),
    };
    let mut types = Vec::new();
    for parameter in parameters.split(", ") {
        let kind = parameter.split_once(": ").unwrap().1;
        if let Some(element) = kind.strip_prefix("&[") {
            types.push(format!("const {} *", number(element.trim_end_matches(']'))));
            types.push("size_t".into());
        } else if let Some(element) = kind.strip_prefix("&mut [") {
            types.push(format!("{} *", number(element.trim_end_matches(']'))));
            types.push("size_t".into());
        } else if let Some(kind) = kind.strip_prefix("&mut ") {
            types.push(format!("{} *", number(kind)));
        } else {
            types.push(number(kind));
        }
    }
    types
}

fn rattle_functions() -> BTreeMap<String, String> {
    let mut found = BTreeMap::new();
    let parts = [
        "fir_taps",
        "fir_forms",
        "fir_planes",
        "fir_networks",
        "fir_verilog",
    ];
    for part in parts {
        for file in read_dir(root().join("crates").join(part).join("src")).unwrap() {
            let text = read_to_string(file.unwrap().path()).unwrap();
            let exported = text.matches("#[unsafe(no_mangle)]").count();
            let here = functions(&text, "pub extern \"C\" fn ");
            assert_eq!(here.len(), exported);
            assert!(text.matches("-> u64\n    ensures").count() >= exported);
            found.extend(here);
        }
    }
    found
}

/// Number, order and type of every parameter; two results are doubles that the core writes as bits.
#[test]
fn prototypes() {
    let mut declared = functions(&text("include/fir.h"), "\nuint64_t ");
    let rattle = rattle_functions();
    assert_eq!(rattle.len(), 16);
    let set = declared.get_mut("fir_round_taps").unwrap();
    for name in ["divisor", "leftover"] {
        assert!(set.contains(&format!("double *{name}")));
        *set = set.replace(&format!("double *{name}"), &format!("uint64_t *{name}"));
    }
    for (name, parameters) in &rattle {
        let here = declared.remove(name).unwrap_or_else(|| panic!("no {name}"));
        assert_eq!(c_types(&here), types_for_c(parameters), "{name}");
    }
    assert!(declared.is_empty(), "{declared:?}");
}

/// The names of the refusals are those of the enum, for C and for the commands.
#[test]
fn refusals() {
    let enums = text("crates/refusal/src/lib.rt");
    let function = enums.split("pub fn number").nth(1).unwrap();
    let function = function.split("pub fn place").next().unwrap();
    let [header, words] = ["include/fir.h", "commands/shared/refusals.h"].map(text);
    let mut count = 0;
    for line in function.lines().filter(|line| line.contains("Refusal::")) {
        let case = line.split("::").nth(1).unwrap();
        let (case, number) = case.split_once("=>").unwrap();
        let case = case.trim().trim_end_matches("(_)");
        let number = number.trim().trim_end_matches(',');
        let mut name = String::from("FIR");
        for c in case.chars() {
            if c.is_ascii_uppercase() {
                name.push('_');
            }
            name.push(c.to_ascii_uppercase());
        }
        count += 1;
        assert!(header.contains(&format!("    {name} = {number}")), "{name}");
        assert!(
            words.contains(&format!("REFUSAL({number}, {name}, \"")),
            "{name}"
        );
        let row = format!("| {number} | ");
        assert_eq!(text("README.md").matches(&row).count(), 1, "{row}");
    }
    assert_eq!((count, words.matches("REFUSAL(").count()), (14, 14));
}

fn without_parentheses(text: &str) -> String {
    let mut inside = 0;
    let mut plain = String::new();
    for c in text.chars() {
        inside += i32::from(c == '(');
        if inside == 0 {
            plain.push(c);
        }
        inside -= i32::from(c == ')');
    }
    plain
}

/// Every function says which refusals it gives, in the order of the table.
#[test]
fn every_refusal_is_said() {
    const ORDER: [u32; 14] = [1, 2, 12, 14, 3, 4, 5, 7, 6, 8, 9, 10, 11, 13];
    let header = text("include/fir.h");
    for name in rattle_functions().keys() {
        let before = header.split(&format!("\nuint64_t {name}(")).next().unwrap();
        let comment = before.rsplit("/*").next().unwrap().replace("\n *", "");
        if comment.contains("Nothing is turned down") {
            continue;
        }
        let list = comment.split("Turned down with").nth(1);
        let list = list.unwrap_or_else(|| panic!("{name}: {comment}"));
        let plain = without_parentheses(list);
        let plain = plain.split(['.', ';']).next().unwrap();
        let words = plain.split(|c: char| !c.is_ascii_digit());
        let numbers: Vec<u32> = words.filter_map(|word| word.parse().ok()).collect();
        let places = numbers
            .iter()
            .map(|n| ORDER.iter().position(|m| m == n).unwrap());
        let places: Vec<usize> = places.collect();
        assert!(
            !places.is_empty() && places.windows(2).all(|pair| pair[0] < pair[1]),
            "{name}: {numbers:?}"
        );
    }
}

/// C of 1999 and C++ take the header without a warning.
#[test]
fn languages() {
    let path = root().join("include/fir.h");
    for words in [&["cc", "-std=c99", "-x", "c"][..], &["c++", "-x", "c++"]] {
        let mut command = Command::new(words[0]);
        command.args(&words[1..]);
        command.args(["-fsyntax-only", "-Wall", "-Wextra", "-Wpedantic", "-Werror"]);
        command.arg(&path);
        let ended = run(&mut command, b"", Delivery::AtOnce);
        assert_eq!(
            (ended.status, ended.errors.as_str()),
            (Some(0), ""),
            "{words:?}"
        );
    }
}

/// What nm prints of the archive's symbols.
fn symbols(arguments: &[&str]) -> String {
    let mut command = Command::new("nm");
    command.args(arguments);
    command.arg(root().join("target/staticlib/libfir.a"));
    let ended = run(&mut command, b"", Delivery::AtOnce);
    assert_eq!(ended.status, Some(0), "{}", ended.errors);
    String::from_utf8(ended.out).unwrap()
}

/// The names of symbols by their kind.
fn kinds(symbols: &str) -> BTreeMap<&str, Vec<&str>> {
    let mut kinds = BTreeMap::new();
    for line in symbols
        .lines()
        .filter(|line| !line.is_empty() && !line.ends_with(':'))
    {
        let words: Vec<&str> = line.split_whitespace().collect();
        let (kind, name) = (words[words.len() - 2], words[words.len() - 1]);
        kinds.entry(kind).or_insert_with(Vec::new).push(name);
    }
    kinds
}

/// No state: the archive has no memory that could be written.
#[test]
fn no_state() {
    let symbols = symbols(&[]);
    let kinds = kinds(&symbols);
    assert_eq!(kinds["T"].len(), 16, "{kinds:?}");
    for (kind, names) in kinds {
        assert!("TtRrUN".contains(kind), "{kind}: {names:?}");
    }
}

/// The archive calls nothing but two functions, and no routine that brings a table along.
#[test]
fn calls_two_functions() {
    let symbols = symbols(&["-u"]);
    let names = kinds(&symbols).into_values().flatten();
    let names: BTreeSet<&str> = names.collect();
    assert_eq!(names, BTreeSet::from(["memcpy", "memset"]));
}
