//! `tools/families` on copies of the repository in which one thing is wrong.

mod tools_check;

use fir_tests::sheet::program::root;
use std::env::temp_dir;
use std::fs::{read_to_string, remove_dir_all, write};
use std::os::unix::fs::symlink;
use std::process::Command;
use tools_check::{replace, Tool};

const FAMILIES: Tool = Tool {
    name: "families",
    parts: &["README.md", "crates.txt", "docs"],
    check: &["--check"],
};

#[test]
fn nothing_wrong() {
    let good = (Some(0), String::new());
    assert_eq!(FAMILIES.run(&root(), &["--check"]), good);
    let (status, picture) = FAMILIES.run(&root(), &[]);
    assert_eq!(status, Some(0));
    for page in ["README.md", "docs/CONTRIBUTING.md"] {
        let text = read_to_string(root().join(page)).unwrap();
        assert!(text.contains(&format!("```text\n{picture}```\n")), "{page}");
    }
}

/// What is reached through another is not named: top rests on low through mid, and w on y through z.
#[test]
fn the_picture() {
    let folder = FAMILIES.scratch();
    let crates = "## low: a\nx: io\ny: x\n\n## mid: b\nz: x y\nw: z y\n## other: c\nv: y\n## top: d\nu: w v x\n";
    write(folder.join("crates.txt"), crates).unwrap();
    let (status, picture) = FAMILIES.run(&folder, &["--crates"]);
    assert_eq!(status, Some(0), "{picture}");
    let wanted = "\
+------------------+--------+
| top                       |
| on mid, other             |
+------------------+--------+
| mid              | other  |
| on low           | on low |
+------------------+--------+
| low                       |
| on the kit alone          |
+------------------+--------+

low       x, y (x)
mid       z, w (z)
other     v
top       u
";
    assert_eq!(picture, wanted);
    remove_dir_all(folder).unwrap();
}

#[test]
fn crates_out_of_order() {
    let file = "crates.txt";
    let says = "sheet stands below refusal, which rests on it";
    FAMILIES.refuses(file, "\nrefusal:\n", "\nrefusal: sheet\n", says);
    FAMILIES.refuses(file, "## base: ", "# base: ", "word stands in no family");
    FAMILIES.refuses(file, "## bench: ", "## base: ", "base is a family twice");
    FAMILIES.refuses(file, "## bench: ", "## bench ", "a heading is");
}

#[test]
fn a_stale_picture() {
    let says = "README.md has another picture";
    FAMILIES.refuses("crates.txt", "\nsheet: ", "\nsheet: run_network ", says);
    let says = "docs/CONTRIBUTING.md has another picture";
    FAMILIES.refuses("docs/CONTRIBUTING.md", "| sheet ", "| Sheet ", says);
    let says = "README.md has no place for the picture";
    FAMILIES.refuses("README.md", "<!-- end -->\n", "", says);
    let folder = FAMILIES.scratch();
    replace(&folder.join("README.md"), "| sheet ", "| Sheet ");
    for argument in ["--write", "--check"] {
        let ended = FAMILIES.run(&folder, &[argument]);
        assert_eq!(ended, (Some(0), String::new()));
    }
    let [is, was] = [&folder, &root()].map(|at| read_to_string(at.join("README.md")).unwrap());
    assert_eq!(is, was);
    remove_dir_all(folder).unwrap();
}

#[test]
fn another_table_of_crates() {
    let says = "README.md's table (>) has other rows than crates.txt (<)";
    for (old, new) in [
        ("| `tap` |", "| tap |"),
        ("| `tap` |", "| `tap` | | |\n| `tap_other` |"),
        ("| **bench** |", "| **benches** |"),
        ("| **bench** | ", "| **bench** | all "),
    ] {
        FAMILIES.refuses("README.md", old, new, says);
    }
    FAMILIES.refuses("crates.txt", "\nbench_second:\n", "\n", says);
}

/// From another folder, and through a symlink.
#[test]
fn from_elsewhere() {
    let folder = FAMILIES.scratch();
    let link = folder.join("link");
    symlink(root().join("tools/families"), &link).unwrap();
    for program in [&root().join("tools/families"), &link] {
        let mut command = Command::new(program);
        let ended = command.arg("--check").current_dir(temp_dir()).output();
        assert_eq!(ended.unwrap().status.code(), Some(0));
    }
    remove_dir_all(folder).unwrap();
}
