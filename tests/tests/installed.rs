//! ./library PREFIX: what it installs, used as a caller in C would.

use fir_tests::commands::Folder;
use fir_tests::sheet::program::{root, run, Delivery, Ended};
use std::fs::{read, read_link, read_to_string, write};
use std::process::Command;

fn library(prefix: &str) -> Ended {
    let mut command = Command::new(root().join("library"));
    run(command.arg(prefix), b"", Delivery::AtOnce)
}

fn through(line: &str, prefix: &str) -> String {
    let mut shell = Command::new("sh");
    shell.args(["-ec", line, "sh", prefix]).current_dir(root());
    let path = format!("{prefix}/lib/pkgconfig");
    let ended = run(shell.env("PKG_CONFIG_PATH", path), b"", Delivery::AtOnce);
    assert_eq!(
        (ended.status, ended.errors.as_str()),
        (Some(0), ""),
        "{line}"
    );
    String::from_utf8(ended.out).unwrap()
}

#[test]
fn filter_through_pkg_config() {
    let folder = Folder::new();
    let prefix = folder.join("some where").display().to_string();
    for _ in 0..2 {
        let ended = library(&prefix);
        assert_eq!((ended.status, ended.errors.as_str()), (Some(0), ""));
    }
    let prefix = folder.join("where").display().to_string();
    assert_eq!(library(&prefix).status, Some(0));
    let header = read_to_string(root().join("include/fir.h")).unwrap();
    assert_eq!(
        read_to_string(format!("{prefix}/include/fir.h")).unwrap(),
        header
    );
    let archive = read(root().join("target/staticlib/libfir.a")).unwrap();
    assert_eq!(read(format!("{prefix}/lib/libfir.a")).unwrap(), archive);
    let major = header.split("#define FIR_VERSION_MAJOR ").nth(1).unwrap();
    let major = major.lines().next().unwrap();
    let minor = header.split("#define FIR_VERSION_MINOR ").nth(1).unwrap();
    let minor = minor.lines().next().unwrap();
    assert!(header.contains(&format!("#define FIR_VERSION \"{major}.{minor}\"")));
    assert_eq!(
        through("pkg-config --modversion fir", &prefix).trim(),
        format!("{major}.{minor}")
    );
    let shared = format!("libfir.so.{major}");
    assert_eq!(
        read_link(format!("{prefix}/lib/libfir.so"))
            .unwrap()
            .to_str(),
        Some(shared.as_str())
    );
    let outputs = "adders 2, outputs 3 0 -98271\n";
    let compile = "cc -Wall -Wextra -Werror examples/filter.c $(pkg-config --cflags --libs fir) -o \"$1/filter\"";
    through(compile, &prefix);
    let called = "LD_LIBRARY_PATH=\"$1/lib\" \"$1/filter\"";
    assert_eq!(through(called, &prefix), outputs);
    let needed = through("readelf -d \"$1/filter\" | grep NEEDED", &prefix);
    assert!(needed.contains(&shared), "{needed}");
    let archived = "cc examples/filter.c $(pkg-config --cflags fir) \"$1/lib/libfir.a\" -o \"$1/alone\"; \"$1/alone\"";
    assert_eq!(through(archived, &prefix), outputs);
    // The shared library has the functions and no other.
    let names = through("nm -D --defined-only \"$1/lib/libfir.so\"", &prefix);
    let named = names.lines().filter(|line| line.contains(" T fir_"));
    assert_eq!((named.count(), names.lines().count()), (16, 16), "{names}");
}

/// What is installed may be moved.
#[test]
fn moved() {
    let folder = Folder::new();
    let prefix = folder.join("old").display().to_string();
    assert_eq!(library(&prefix).status, Some(0));
    let moved = folder.join("new").display().to_string();
    std::fs::rename(&prefix, &moved).unwrap();
    let flags = through("pkg-config --cflags --libs fir", &moved);
    assert!(
        flags.contains("/new/") && !flags.contains("/old/"),
        "{flags}"
    );
}

#[test]
fn nowhere() {
    let folder = Folder::new();
    let path = folder.join("file");
    write(&path, "").unwrap();
    let ended = library(&path.display().to_string());
    assert_eq!(ended.status, Some(2));
    assert!(
        ended.errors.contains("library: cannot write"),
        "{}",
        ended.errors
    );
    for name in ["include/fir.h", "lib/libfir.so"] {
        let prefix = folder.join("taken");
        std::fs::create_dir_all(prefix.join(name).join("x")).unwrap();
        let ended = library(&prefix.display().to_string());
        assert_eq!(ended.status, Some(2), "{name}");
        assert!(ended.errors.contains("cannot write"), "{}", ended.errors);
        std::fs::remove_dir_all(prefix).unwrap();
    }
    for arguments in [&["-x"][..], &["a", "b"], &[""]] {
        let mut command = Command::new(root().join("library"));
        let ended = run(command.args(arguments), b"", Delivery::AtOnce);
        assert_eq!(ended.status, Some(2));
        assert_eq!(ended.errors, "library: usage: library [PREFIX]\n");
    }
}
