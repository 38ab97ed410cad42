//! The command ./fir: help, usage before anything is built, statuses, and streams that fail.

use fir_tests::commands::clone::Clone;
use fir_tests::commands::{ends_with, fir, printed, Folder};
use fir_tests::sheet::program::{root, run, Delivery, Ended};
use std::fs::{read_dir, set_permissions, Permissions};
use std::os::unix::fs::PermissionsExt;
use std::process::Command;

const COMMANDS: [&str; 7] = [
    "draw", "forms", "planes", "round", "sheet", "taps", "verilog",
];

fn text(ended: Ended) -> String {
    assert_eq!((ended.status, ended.errors.as_str()), (Some(0), ""));
    String::from_utf8(ended.out).unwrap()
}

/// On a fresh clone, and `rt` is not called.
#[test]
fn help() {
    let clone = Clone::fresh();
    let list = text(clone.run(&["fir"], b""));
    for arguments in [&["fir", "help"], &["fir", "-h"], &["fir", "--help"]] {
        assert_eq!(text(clone.run(arguments, b"")), list);
    }
    let lines: Vec<&str> = list.lines().collect();
    assert_eq!(lines.len(), 2 + COMMANDS.len());
    for (line, name) in lines[1..].iter().zip(COMMANDS) {
        assert!(
            line.starts_with(&format!("  {name} ")) && line.len() <= 100,
            "{line}"
        );
        let help = text(clone.run(&["fir", "help", name], b""));
        let usage = help.lines().next().unwrap();
        let (start, summary) = line.trim().split_once("  ").unwrap();
        assert_eq!(usage, format!("usage: fir {start}"));
        assert_eq!(help.lines().nth(1), Some(summary.trim()));
        assert!(help.lines().count() > 5 && help.lines().all(|line| line.len() <= 110));
        assert!(!help.contains("*/") && !help.contains("#include"), "{help}");
    }
    assert!(clone.calls().is_empty());
    let files = read_dir(root().join("commands")).unwrap();
    let sources = files
        .map(|file| file.unwrap().path())
        .filter(|path| path.is_file());
    assert_eq!(sources.count(), COMMANDS.len());
}

fn said(command: &str, words: &[&str]) -> String {
    words
        .iter()
        .map(|words| format!("fir {command}: {words}\n"))
        .collect()
}

/// On a fresh clone, and `rt` is not called.
#[test]
fn usage() {
    let clone = Clone::fresh();
    let none = "there is no command";
    let list = "fir help lists those that there are";
    let round = "usage: fir round F [-n] [-b] [FILE]";
    let draw = "usage: fir draw [--svg|--dot] [SHEET]";
    let forms = "usage: fir forms N";
    let verilog = "usage: fir verilog F [-b] [FILE]";
    for (arguments, words) in [
        (&["nosuch"][..], format!("fir: {none} nosuch; {list}\n")),
        (&[""], format!("fir: {none} ; {list}\n")),
        (
            &["shared/main"],
            format!("fir: {none} shared/main; {list}\n"),
        ),
        (&["help", "nosuch"], format!("fir: {none} nosuch; {list}\n")),
        (
            &["help", "forms", "x"],
            "fir: usage: fir help [COMMAND]\n".into(),
        ),
        (&["round"], said("round", &["too few arguments", round])),
        (
            &["round", "1", "2", "3"],
            said("round", &["too many arguments", round]),
        ),
        (
            &["round", "-x", "1"],
            said("round", &["there is no option -x", round]),
        ),
        (
            &["round", "1", "--hex"],
            said("round", &["there is no option --hex", round]),
        ),
        (
            &["round", "1", "-*"],
            said("round", &["there is no option -*", round]),
        ),
        (
            &["round", "1", "/no/such/file"],
            said("round", &["cannot read /no/such/file"]),
        ),
        (&["round", "1", "/"], said("round", &["cannot read /"])),
        (
            &["draw", "--svg", "--dot"],
            said("draw", &["--svg and --dot exclude each other", draw]),
        ),
        (&["forms"], said("forms", &["too few arguments", forms])),
        (
            &["forms", "1", "2"],
            said("forms", &["too many arguments", forms]),
        ),
        (
            &["verilog"],
            said("verilog", &["too few arguments", verilog]),
        ),
        (
            &["verilog", "1", "2", "3"],
            said("verilog", &["too many arguments", verilog]),
        ),
        (
            &["verilog", "-n", "1"],
            said("verilog", &["there is no option -n", verilog]),
        ),
        (
            &["verilog", "1", "/no/such/file"],
            said("verilog", &["cannot read /no/such/file"]),
        ),
    ] {
        let ended = clone.run(&[&["fir"], arguments].concat(), b"");
        assert_eq!(ended.errors, words, "{arguments:?}");
        assert_eq!((ended.status, ended.out.len()), (Some(2), 0));
    }
    for number in [
        "",
        "x",
        "1x",
        "+1",
        "--1",
        "1 ",
        " 1",
        "0x1",
        "1e1",
        "2147483648",
        "-2147483649",
        "99999999999",
        "*",
        "1.0",
        "-",
    ] {
        let ended = clone.run(&["fir", "forms", "--", number], b"");
        let words = format!("{number} is no whole number from -2147483648 to 2147483647");
        assert_eq!(ended.errors, said("forms", &[&words, forms]));
        assert_eq!((ended.status, ended.out.len()), (Some(2), 0));
    }
    assert!(clone.calls().is_empty());
}

/// The same of `planes`, whose second word is a number too.
#[test]
fn usage_of_planes() {
    let clone = Clone::fresh();
    let planes = "usage: fir planes F WIDTH [-b] [FILE]";
    for (arguments, words) in [
        (
            &["planes", "1"][..],
            said("planes", &["too few arguments", planes]),
        ),
        (
            &["planes", "1", "2", "3", "4"],
            said("planes", &["too many arguments", planes]),
        ),
        (
            &["planes", "1", "2", "-n"],
            said("planes", &["there is no option -n", planes]),
        ),
        (
            &["planes", "1", "2", "/no/such/file"],
            said("planes", &["cannot read /no/such/file"]),
        ),
    ] {
        let ended = clone.run(&[&["fir"], arguments].concat(), b"");
        assert_eq!(ended.errors, words, "{arguments:?}");
        assert_eq!((ended.status, ended.out.len()), (Some(2), 0));
    }
    for number in [
        "", "x", "5x", "+5", "-5", "5 ", "0x5", "1e1", "5.0", "*", "-",
    ] {
        let ended = clone.run(&["fir", "planes", "--", "x", number], b"");
        let words = format!("{number} is no whole number from 0 on");
        assert_eq!(ended.errors, said("planes", &[&words, planes]));
        assert_eq!((ended.status, ended.out.len()), (Some(2), 0));
    }
    assert!(clone.calls().is_empty());
}

/// Options stand anywhere behind the command, and a file's name behind -- may begin with one's mark.
#[test]
fn arguments() {
    let taps = b"1 2 1";
    let wanted = printed(&["round", "-n", "15"], taps);
    for arguments in [
        &["round", "15", "-n"][..],
        &["round", "15", "-n", "-"],
        &["round", "-n", "--", "15"],
        &["round", "-n", "-n", "00015", "/dev/stdin"],
    ] {
        assert_eq!(printed(arguments, taps), wanted);
    }
    let clone = Clone::fresh();
    clone.write("-b", "1 2 1");
    let mut command = Command::new(root().join("fir"));
    command
        .current_dir(clone.path("."))
        .args(["round", "-n", "15", "--", "-b"]);
    assert_eq!(run(&mut command, b"", Delivery::AtOnce).out, wanted);
}

fn through(line: &str, bytes: &[u8]) -> Ended {
    let mut shell = Command::new("bash");
    shell.args(["-c", line]).arg(root().join("fir"));
    run(&mut shell, bytes, Delivery::AtOnce)
}

/// Each command, with what it reads.
fn calls() -> [(&'static str, Vec<u8>); 9] {
    let sheet = printed(&["sheet", "0"], b"3 -6 45 0");
    [
        ("forms 45", vec![]),
        ("planes 15 1", b"0.1".to_vec()),
        ("round 15", b"0.1".to_vec()),
        ("sheet 15", b"0.1".to_vec()),
        ("taps", b"0.1".to_vec()),
        ("verilog 15", b"0.1".to_vec()),
        ("draw", sheet.clone()),
        ("draw --dot", sheet),
        ("help", vec![]),
    ]
}

#[test]
fn output_that_cannot_be_written() {
    for (words, bytes) in calls() {
        assert_eq!(
            through(&format!("exec \"$0\" {words}"), &bytes).status,
            Some(0)
        );
        for end in [">/dev/full", ">&-"] {
            let ended = through(&format!("exec \"$0\" {words} {end}"), &bytes);
            assert_eq!(ended.status, Some(2), "{words} {end}: {}", ended.errors);
            assert!(ended.errors.contains("fir"), "{}", ended.errors);
        }
        // Standard error closed: the status tells.
        let ended = through(&format!("exec \"$0\" {words} 2>&-"), &bytes);
        assert_eq!(ended.status, Some(0), "{words}");
        let ended = through(&format!("exec \"$0\" {words} >&- 2>&-"), &bytes);
        assert_eq!(ended.status, Some(2), "{words}");
    }
    // Where the reader has gone, the command ends and says nothing.
    let ended = through("\"$0\" forms 858993459 | head -n 1", b"");
    assert_eq!(ended.errors, "");
}

/// A closed standard input is an empty one.
#[test]
fn no_input() {
    for words in ["planes 15 1", "round 15", "sheet 15", "verilog 15"] {
        let ended = through(&format!("exec \"$0\" {words} <&-"), b"");
        assert_eq!(ended.status, Some(1), "{}", ended.errors);
        assert!(ended.errors.ends_with("there are no taps (refusal 1)\n"));
    }
    let words = "fir draw: the first line is not a sheet's header\n";
    assert_eq!(through("exec \"$0\" draw <&-", b"").errors, words);
}

/// Signals that the caller ignores, and a limit on the size of files.
#[test]
fn signals_and_limits() {
    let sheet = printed(&["sheet", "0"], b"3 -6 45 0");
    let folder = Folder::new();
    std::fs::write(folder.join("dot"), "#!/bin/sh\necho half\nexit 1\n").unwrap();
    set_permissions(folder.join("dot"), Permissions::from_mode(0o755)).unwrap();
    let path = format!("PATH='{}':$PATH", folder.path().display());
    let line = format!("trap '' CHLD PIPE; {path} exec \"$0\" draw --svg");
    let ended = through(&line, &sheet);
    assert_eq!(
        (ended.status, ended.out.len()),
        (Some(2), 0),
        "{}",
        ended.errors
    );
    let ended = through("trap '' CHLD; exec \"$0\" sheet 0", b"3 -6 45 0");
    assert_eq!((ended.status, ended.out), (Some(0), sheet));
    let ended = through("ulimit -f 0; exec \"$0\" sheet 0", b"3 -6 45 0");
    assert_eq!(
        (ended.status, ended.out.len()),
        (Some(2), 0),
        "{}",
        ended.errors
    );
}

#[test]
fn other_statuses() {
    ends_with(
        2,
        &["round", "15"],
        b"1 x",
        "fir round: line 1: not a number: x\n",
    );
    ends_with(
        1,
        &["round", "15"],
        b"",
        "fir round: there are no taps (refusal 1)\n",
    );
    assert_eq!(fir(&["round", "15"], b"1").status, Some(0));
}

/// No compiler has anything to say of the commands' C, at any level.
#[test]
fn compiled_without_a_warning() {
    for level in ["-O0", "-O1", "-O2", "-O3"] {
        let line = "for file in commands/*.c commands/*/*.c; do cc -std=c99 -D_POSIX_C_SOURCE=200809L \
            -Wall -Wextra -Wpedantic -Wshadow -Werror -Iinclude \"$0\" -c \"$file\" -o /dev/null || exit 1; done";
        let mut shell = Command::new("bash");
        shell.args(["-c", line, level]).current_dir(root());
        let ended = run(&mut shell, b"", Delivery::AtOnce);
        assert_eq!((ended.status, ended.errors.as_str()), (Some(0), ""));
    }
}
