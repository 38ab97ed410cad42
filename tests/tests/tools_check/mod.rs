//! A tool run on copies of the repository in which one thing is wrong.

use fir_tests::sheet::program::root;
use std::env::temp_dir;
use std::fs::{copy, create_dir_all, read_dir, read_to_string, remove_dir_all, write};
use std::path::{Path, PathBuf};
use std::process::{id, Command};
use std::sync::atomic::{AtomicUsize, Ordering::Relaxed};

pub struct Tool {
    pub name: &'static str,
    /// What it reads, beside tools/.
    pub parts: &'static [&'static str],
    /// How it is asked to check.
    pub check: &'static [&'static str],
}

/// Copies a file or a folder, without what proofs have left beside sources.
fn copied(from: &Path, to: &Path) {
    if from.is_file() {
        copy(from, to).unwrap();
        return;
    }
    create_dir_all(to).unwrap();
    for entry in read_dir(from).unwrap() {
        let entry = entry.unwrap();
        if entry.file_name() != "out" {
            copied(&entry.path(), &to.join(entry.file_name()));
        }
    }
}

/// The first text becomes the second in a file.
pub fn replace(path: &Path, old: &str, new: &str) {
    let text = read_to_string(path).unwrap();
    assert!(text.contains(old), "{} has no {old}", path.display());
    write(path, text.replacen(old, new, 1)).unwrap();
}

impl Tool {
    /// A copy of its own for every call: tests run side by side.
    pub fn scratch(&self) -> PathBuf {
        static COPIES: AtomicUsize = AtomicUsize::new(0);
        let number = COPIES.fetch_add(1, Relaxed);
        let folder = temp_dir().join(format!("{}-{}-{number}", self.name, id()));
        create_dir_all(&folder).unwrap();
        for part in self.parts.iter().chain(&["tools"]) {
            copied(&root().join(part), &folder.join(part));
        }
        folder
    }

    /// The tool's exit status and all that it prints, in that folder. By bash, which reads it: a file just
    /// copied cannot be executed while another test's process still has it open for writing.
    pub fn run(&self, folder: &Path, arguments: &[&str]) -> (Option<i32>, String) {
        let mut command = Command::new("bash");
        command.arg(folder.join("tools").join(self.name));
        let ended = command.args(arguments).output().unwrap();
        let printed = [ended.stdout, ended.stderr].concat();
        (ended.status.code(), String::from_utf8(printed).unwrap())
    }

    /// The first text becomes the second in a file of a copy, and the tool must say this.
    pub fn refuses(&self, file: &str, old: &str, new: &str, says: &str) {
        let folder = self.scratch();
        replace(&folder.join(file), old, new);
        let (status, out) = self.run(&folder, self.check);
        remove_dir_all(&folder).unwrap();
        assert_eq!(status, Some(1), "{old} to {new}: {out}");
        assert!(out.contains(says), "{old} to {new}: {out}");
    }
}
