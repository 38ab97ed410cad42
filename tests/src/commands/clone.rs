//! The commands in a folder of their own, like a clone with one small crate, and a stand-in for `rt`
//! that proves nothing: it puts in place what the real one has made here, and notes its calls.

use super::Folder;
use crate::sheet::program::{self, run, Delivery, Ended};
use std::env;
use std::fs::{
    copy, create_dir_all, read_dir, read_to_string, set_permissions, write, Permissions,
};
use std::os::unix::fs::PermissionsExt;
use std::path::{Path, PathBuf};
use std::process::Command;

pub const KIT: &str = "kit of the tests";

/// `bin/fails` makes the program print another text than it must, `bin/rest` makes proofs slow.
const STAND_IN: &str = r#"#!/bin/sh
here=$(dirname "$0")
[ "$1" != version ] || exec cat "$here/kit"
echo "$*" >>"$here/calls"
[ ! -f "$here/rest" ] || sleep 0.5
crate=$(basename "$PWD")
case $* in
run)
    mkdir -p out
    if [ -f "$here/fails" ]; then
        printf '#!/bin/sh\necho kind\n' >out/sheet
        chmod 755 out/sheet
        echo kind
        exit 0
    fi
    cp "$SHEET" out/sheet
    cat stdout
    ;;
lib)
    mkdir -p out
    case $crate in fir_*) cp "$MADE/target/staticlib/lib$crate.a" out ;; esac
    ;;
ci)
    flock -n crates true && echo "free" || echo "locked"
    exit 1
    ;;
*) exit 9 ;;
esac
"#;

pub struct Clone(Folder);

fn copy_folder(from: &Path, to: &Path) {
    create_dir_all(to).unwrap();
    for entry in read_dir(from).unwrap() {
        let entry = entry.unwrap();
        let (from, to) = (entry.path(), to.join(entry.file_name()));
        if from.is_dir() {
            copy_folder(&from, &to);
        } else {
            copy(&from, &to).unwrap();
        }
    }
}

impl Default for Clone {
    fn default() -> Self {
        Clone::fresh()
    }
}

impl Clone {
    /// Nothing is built.
    pub fn fresh() -> Self {
        let clone = Clone(Folder::new());
        for name in ["sheet", "fir", "library", "test"] {
            copy(program::root().join(name), clone.path(name)).unwrap();
        }
        for name in ["commands", "include"] {
            copy_folder(&program::root().join(name), &clone.path(name));
        }
        let parts = ["taps", "forms", "planes", "networks", "verilog"];
        let parts = parts.map(|part| format!("fir_{part} staticlib: word\n"));
        clone.write(
            "crates.txt",
            &format!("# kit: {KIT}\nword:\nsheet: word\n{}", parts.concat()),
        );
        for part in &parts {
            let name = part.split(' ').next().unwrap();
            clone.write(&format!("crates/{name}/src/lib.rt"), "// a crate\n");
        }
        clone.write("crates/sheet/src/main.rt", "// the program\n");
        clone.write("crates/sheet/stdin", "");
        clone.write("crates/sheet/stdout", "what it prints\n");
        clone.write("crates/word/src/lib.rt", "// a crate\n");
        clone.write("bin/kit", &format!("{KIT}\n"));
        clone.write("bin/rt", STAND_IN);
        set_permissions(clone.path("bin/rt"), Permissions::from_mode(0o755)).unwrap();
        clone
    }

    /// With the sheet program.
    pub fn built() -> Self {
        let clone = Clone::fresh();
        run(&mut clone.command("sheet"), b"", Delivery::AtOnce);
        clone
    }

    pub fn path(&self, name: &str) -> PathBuf {
        self.0.join(name)
    }

    pub fn write(&self, name: &str, text: &str) {
        let path = self.path(name);
        create_dir_all(path.parent().unwrap()).unwrap();
        write(path, text).unwrap();
    }

    pub fn search_path(&self) -> String {
        let path = env::var("PATH").unwrap();
        format!("{}:{path}", self.path("bin").display())
    }

    /// One of its commands, which finds the stand-in.
    pub fn command(&self, name: &str) -> Command {
        let mut command = Command::new(self.path(name));
        self.prepare(&mut command);
        command
    }

    pub fn prepare(&self, command: &mut Command) {
        command.env("PATH", self.search_path());
        command.env("SHEET", program::sheet());
        command.env("MADE", program::root());
    }

    pub fn run(&self, words: &[&str], bytes: &[u8]) -> Ended {
        let mut command = self.command(words[0]);
        run(command.args(&words[1..]), bytes, Delivery::AtOnce)
    }

    /// The calls of `rt` so far, but those for its version.
    pub fn calls(&self) -> Vec<String> {
        let text = read_to_string(self.path("bin/calls")).unwrap_or_default();
        text.lines().map(String::from).collect()
    }
}
