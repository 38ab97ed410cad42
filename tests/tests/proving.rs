//! What ./sheet, ./fir and ./library trust: the record of a proof, made once by one of them at a time.

use fir_tests::commands::clone::{Clone, KIT};
use fir_tests::sheet::input::{packed, Input};
use fir_tests::sheet::literal;
use fir_tests::sheet::program::{run, Delivery, Ended};
use std::fs::{
    copy, read, remove_dir_all, remove_file, rename, set_permissions, write, File, Permissions,
};
use std::io::{Read, Write};
use std::os::unix::fs::{symlink, PermissionsExt};
use std::process::{Child, Command, Stdio};
use std::thread;
use std::time::{Duration, Instant, SystemTime};

const EXAMPLE: [f64; 4] = [3.0, -6.0, 45.0, 0.0];

fn call(clone: &Clone) -> Ended {
    clone.run(&["sheet", "0"], &packed(&EXAMPLE))
}

fn prints_the_sheet(ended: &Ended) {
    assert_eq!(ended.status, Some(0), "{}", ended.errors);
    assert_eq!(ended.out, literal::sheet(&Input::new(&EXAMPLE, "0")));
}

/// How often the program was proved, its library before it, to make this sheet.
fn proofs(clone: &Clone) -> usize {
    let before = clone.calls().len();
    prints_the_sheet(&call(clone));
    let calls = clone.calls().split_off(before);
    assert_eq!(calls, ["lib", "run"].repeat(calls.len() / 2));
    calls.len() / 2
}

fn touch(clone: &Clone, name: &str, time: SystemTime) {
    let file = File::options().append(true).open(clone.path(name)).unwrap();
    file.set_modified(time).unwrap();
}

/// Where the gate turns the program down after it has left it, no call prints what it writes.
#[test]
fn turned_down_by_the_gate() {
    let clone = Clone::fresh();
    clone.write("bin/fails", "");
    for calls in 1..4 {
        let ended = call(&clone);
        assert_eq!((ended.status, ended.out.len()), (Some(2), 0));
        let words = "sheet: crates/sheet was proved, and its run FAILED: see ";
        assert!(ended.errors.contains(words), "{}", ended.errors);
        assert_eq!(clone.calls().len(), 2 * calls);
    }
    remove_file(clone.path("bin/fails")).unwrap();
    assert_eq!(proofs(&clone), 1);
    assert_eq!(proofs(&clone), 0);
    clone.write("bin/fails", "");
    clone.write("crates/sheet/src/main.rt", "// another\n");
    assert_eq!(call(&clone).status, Some(2));
    assert_eq!(call(&clone).status, Some(2));
}

/// A source that changes is proved again, whatever its time; a time alone, or what an editor leaves, is
/// no change.
#[test]
fn by_what_sources_hold() {
    let clone = Clone::fresh();
    let source = "crates/sheet/src/main.rt";
    assert_eq!(proofs(&clone), 1);
    touch(
        &clone,
        source,
        SystemTime::now() + Duration::from_secs(3600),
    );
    clone.write("crates/sheet/src/main.rt~", "// older\n");
    clone.write("crates/sheet/src/.main.rt.swp", "\0");
    assert_eq!(proofs(&clone), 0);
    write(clone.path(source), "// other\n").unwrap();
    touch(&clone, source, SystemTime::UNIX_EPOCH);
    assert_eq!(proofs(&clone), 1, "a changed source with an old time");
    clone.write("crates/word/specs/More.antt", "");
    assert_eq!(proofs(&clone), 1, "a new source");
    remove_file(clone.path("crates/word/specs/More.antt")).unwrap();
    assert_eq!(proofs(&clone), 1, "a deleted source");
    clone.write("crates/words/src/lib.rt", "// a crate\n");
    assert_eq!(proofs(&clone), 1, "another crate");
    rename(clone.path("crates/words"), clone.path("crates/others")).unwrap();
    assert_eq!(proofs(&clone), 1, "a renamed crate");
    clone.write("crates/sheet/stdout", "text");
    assert_eq!(proofs(&clone), 1, "what the program must print");
    let crates = String::from_utf8(read(clone.path("crates.txt")).unwrap()).unwrap();
    clone.write("crates.txt", &(crates + "# more\n"));
    assert_eq!(proofs(&clone), 1, "crates.txt");
    clone.write("bin/kit", "another kit\n");
    assert_eq!(proofs(&clone), 1, "another kit");
    assert_eq!(proofs(&clone), 0);
}

/// The program that a record speaks of, and no other.
#[test]
fn by_the_program() {
    let clone = Clone::built();
    assert_eq!(proofs(&clone), 0);
    remove_file(clone.path("target/commands/sheet")).unwrap();
    assert_eq!(proofs(&clone), 1, "no program");
    copy("/bin/true", clone.path("target/commands/sheet")).unwrap();
    assert_eq!(proofs(&clone), 1, "another program");
    remove_file(clone.path("target/commands/sheet.proof")).unwrap();
    copy("/bin/true", clone.path("crates/sheet/out/sheet")).unwrap();
    assert_eq!(
        proofs(&clone),
        1,
        "no record, and another program where rt has put its own"
    );
    remove_dir_all(clone.path("target")).unwrap();
    assert_eq!(proofs(&clone), 1, "nothing at all");
    // What another rt leaves is not what the record speaks of.
    copy("/bin/true", clone.path("crates/sheet/out/sheet")).unwrap();
    assert_eq!(proofs(&clone), 0);
}

/// A crate behind a link is a source too.
#[test]
fn linked_crates() {
    let clone = Clone::fresh();
    rename(clone.path("crates/word"), clone.path("elsewhere")).unwrap();
    symlink("../elsewhere", clone.path("crates/word")).unwrap();
    assert_eq!(proofs(&clone), 1);
    assert_eq!(proofs(&clone), 0);
    clone.write("elsewhere/src/lib.rt", "// changed\n");
    assert_eq!(proofs(&clone), 1);
}

/// Without what decides what is trusted, nothing is.
#[test]
fn scripts_alone() {
    let clone = Clone::built();
    clone.run(&["fir", "forms", "3"], b"");
    remove_file(clone.path("commands/shared/proof.sh")).unwrap();
    for words in [
        &["sheet", "0"][..],
        &["fir"],
        &["fir", "forms", "3"],
        &["fir", "sheet", "0"],
        &["library"],
    ] {
        let ended = clone.run(words, &packed(&EXAMPLE));
        assert_eq!((ended.status, ended.out.len()), (Some(2), 0), "{words:?}");
    }
    assert_eq!(clone.run(&["test"], b"").status, Some(1));
}

#[test]
fn no_room() {
    let clone = Clone::fresh();
    clone.write("target", "a file");
    let ended = call(&clone);
    assert_eq!((ended.status, ended.out.len()), (Some(2), 0));
    assert!(ended.errors.contains("sheet: no room"), "{}", ended.errors);
}

/// First calls at once: one proves, the others wait and look again.
#[test]
fn three_at_once() {
    let clone = Clone::fresh();
    clone.write("bin/rest", "");
    thread::scope(|scope| {
        let calls: Vec<_> = (0..3).map(|_| scope.spawn(|| call(&clone))).collect();
        for ended in calls {
            prints_the_sheet(&ended.join().unwrap());
        }
    });
    assert_eq!(clone.calls(), ["lib", "run"]);
    let clone = Clone::fresh();
    clone.write("bin/rest", "");
    thread::scope(|scope| {
        let forms = || clone.run(&["fir", "forms", "3"], b"");
        let calls: Vec<_> = (0..3).map(|_| scope.spawn(forms)).collect();
        for ended in calls {
            let ended = ended.join().unwrap();
            assert_eq!(ended.status, Some(0), "{}", ended.errors);
            assert!(ended.out.ends_with(b" and no other\n"));
        }
    });
    assert_eq!(clone.calls().len(), 6, "{:?}", clone.calls());
}

/// Holds the lock until its standard input is closed.
fn holder(clone: &Clone) -> Child {
    let mut holder = Command::new("flock");
    holder
        .arg(clone.path("crates"))
        .args(["sh", "-c", "echo; cat"]);
    holder.stdin(Stdio::piped()).stdout(Stdio::piped());
    let mut holder = holder.spawn().unwrap();
    holder
        .stdout
        .as_mut()
        .unwrap()
        .read_exact(&mut [0])
        .unwrap();
    holder
}

/// Beside a command that holds the lock, as ./test does while rt ci runs.
#[test]
fn beside_another() {
    let clone = Clone::built();
    let mut holder = holder(&clone);
    assert_eq!(proofs(&clone), 0, "nothing is to be proved");
    remove_dir_all(clone.path("target")).unwrap();
    let errors = clone.path("errors");
    let mut command = clone.command("sheet");
    command
        .arg("0")
        .stdin(Stdio::piped())
        .stdout(Stdio::piped());
    let mut waiting = command
        .stderr(File::create(&errors).unwrap())
        .spawn()
        .unwrap();
    let input = waiting.stdin.take().unwrap().write_all(&packed(&EXAMPLE));
    input.unwrap();
    let begun = Instant::now();
    while read(&errors).unwrap().is_empty() && begun.elapsed() < Duration::from_secs(60) {
        thread::sleep(Duration::from_millis(10));
    }
    let words = "sheet: waiting for another command that proves here\n";
    assert_eq!(String::from_utf8(read(&errors).unwrap()).unwrap(), words);
    assert_eq!(waiting.try_wait().unwrap(), None);
    drop(holder.stdin.take());
    holder.wait().unwrap();
    let output = waiting.wait_with_output().unwrap();
    assert_eq!(output.stdout, literal::sheet(&Input::new(&EXAMPLE, "0")));
    assert_eq!((output.status.code(), clone.calls().len()), (Some(0), 4));
}

/// While rt ci runs, ./test holds that lock; where it fails, the lock is free again.
#[test]
fn beside_the_tests() {
    let clone = Clone::built();
    for tool in ["believed", "families"] {
        clone.write(&format!("tools/{tool}"), "#!/bin/sh\n");
        let path = clone.path("tools").join(tool);
        set_permissions(path, Permissions::from_mode(0o755)).unwrap();
    }
    let ended = clone.run(&["test"], b"");
    let out = String::from_utf8(ended.out).unwrap();
    assert_eq!(ended.status, Some(1), "{out}");
    assert!(out.contains("(rt ci)\nlocked\n"), "{out}");
    assert_eq!(proofs(&clone), 0);
}

#[test]
fn progress() {
    let clone = Clone::fresh();
    let ended = call(&clone);
    prints_the_sheet(&ended);
    let words = [
        "sheet: proving and building the program: up to half an hour, only once",
        "sheet: 1 of 2 crates proved",
        "sheet: 2 of 2 crates proved",
        "sheet: proved and built in ",
    ];
    let mut rest = ended.errors.as_str();
    for word in words {
        let at = rest.find(word);
        rest = &rest[at.unwrap_or_else(|| panic!("{}", ended.errors))..];
    }
}

/// Without `rt` nothing is proved, and what was proved is used; another kit is named.
#[test]
fn kits() {
    let clone = Clone::built();
    let without = |clone: &Clone| {
        let folder = clone.path("others");
        std::fs::create_dir_all(&folder).unwrap();
        for name in [
            "bash",
            "env",
            "dirname",
            "readlink",
            "sed",
            "find",
            "sort",
            "xargs",
            "sha256sum",
            "cut",
            "cat",
            "flock",
            "head",
            "tr",
            "mkdir",
            "mktemp",
            "rm",
            "wc",
            "awk",
            "grep",
        ] {
            let found = run(
                Command::new("sh").args(["-c", &format!("command -v {name}")]),
                b"",
                Delivery::AtOnce,
            );
            let path = String::from_utf8(found.out).unwrap();
            let _ = symlink(path.trim(), folder.join(name));
        }
        let mut command = clone.command("sheet");
        command.env("PATH", folder).arg("0");
        run(&mut command, &packed(&EXAMPLE), Delivery::AtOnce)
    };
    prints_the_sheet(&without(&clone));
    remove_dir_all(clone.path("target")).unwrap();
    let ended = without(&clone);
    assert_eq!((ended.status, ended.out.len()), (Some(2), 0));
    let words = format!(
        "sheet: no rt here: the core is proved by the Rattle kit ({KIT}), whose rt is expected on PATH\n"
    );
    assert_eq!(ended.errors, words);
    clone.write("bin/kit", "kit 9\n");
    let ended = call(&clone);
    prints_the_sheet(&ended);
    let words = format!("sheet: the kit on PATH is kit 9, and this repository expects {KIT};");
    assert!(ended.errors.contains(&words), "{}", ended.errors);
}

/// Called through a link, from elsewhere, with a CDPATH that leads astray.
#[test]
fn links() {
    let clone = Clone::built();
    let elsewhere = clone.path("else where");
    std::fs::create_dir_all(elsewhere.join("crates")).unwrap();
    for name in ["sheet", "fir", "library"] {
        symlink(clone.path(name), elsewhere.join(name)).unwrap();
        symlink(elsewhere.join(name), elsewhere.join(format!("{name}2"))).unwrap();
    }
    let ended = |word: &str, arguments: &[&str]| {
        let mut command = Command::new("bash");
        command.current_dir(&elsewhere).arg(word).args(arguments);
        clone.prepare(&mut command);
        command.env("CDPATH", format!("{}:/", elsewhere.display()));
        run(&mut command, &packed(&EXAMPLE), Delivery::AtOnce)
    };
    for word in ["sheet", "./sheet", "sheet2", "../sheet"] {
        prints_the_sheet(&ended(word, &["0"]));
    }
    assert_eq!(ended("library2", &[]).status, Some(0));
    for word in ["fir", "fir2", "../fir"] {
        assert!(ended(word, &["forms", "3"])
            .out
            .ends_with(b"and no other\n"));
    }
}
