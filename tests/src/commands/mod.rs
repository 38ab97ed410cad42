//! The commands at the top of the repository, run as processes.

pub mod clone;

use crate::sheet::program::{root, run, Delivery, Ended};
use std::env::temp_dir;
use std::fs::{create_dir_all, remove_dir_all};
use std::path::{Path, PathBuf};
use std::process::{id, Command};
use std::sync::atomic::{AtomicUsize, Ordering::Relaxed};

/// ./fir with these arguments.
pub fn fir(arguments: &[&str], bytes: &[u8]) -> Ended {
    let mut command = Command::new(root().join("fir"));
    run(command.args(arguments), bytes, Delivery::AtOnce)
}

/// What ./fir prints when all is well.
pub fn printed(arguments: &[&str], bytes: &[u8]) -> Vec<u8> {
    let ended = fir(arguments, bytes);
    assert_eq!((ended.status, ended.errors.as_str()), (Some(0), ""));
    ended.out
}

/// Nothing but words on standard error, and this status.
pub fn ends_with(status: i32, arguments: &[&str], bytes: &[u8], words: &str) {
    let ended = fir(arguments, bytes);
    assert_eq!(ended.errors, words, "{arguments:?}");
    assert_eq!((ended.status, ended.out.len()), (Some(status), 0));
}

/// A folder of its own that is removed at the end.
pub struct Folder(PathBuf);

impl Folder {
    pub fn new() -> Self {
        static FOLDERS: AtomicUsize = AtomicUsize::new(0);
        let number = FOLDERS.fetch_add(1, Relaxed);
        let folder = temp_dir().join(format!("fir-{}-{number}", id()));
        create_dir_all(&folder).unwrap();
        Folder(folder)
    }

    pub fn path(&self) -> &Path {
        &self.0
    }

    pub fn join(&self, name: &str) -> PathBuf {
        self.0.join(name)
    }
}

impl Default for Folder {
    fn default() -> Self {
        Folder::new()
    }
}

impl Drop for Folder {
    fn drop(&mut self) {
        let _ = remove_dir_all(&self.0);
    }
}
