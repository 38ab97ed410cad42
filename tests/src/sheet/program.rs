//! Running a program as a process: its input through a pipe, its argument, and all that it gives
//! back. A program that does not end in time is stopped, and the test fails.

use super::input::Input;
use std::env;
use std::ffi::OsStr;
use std::io::{Read, Write};
use std::os::unix::ffi::OsStrExt;
use std::path::PathBuf;
use std::process::{Child, ChildStdin, Command, Stdio};
use std::sync::mpsc::channel;
use std::thread;
use std::time::Duration;

const TIME_LIMIT: Duration = Duration::from_secs(60);

/// How the input comes through the pipe.
#[derive(Clone, Copy, Debug, PartialEq, Eq)]
pub enum Delivery {
    AtOnce,
    /// In pieces of so many bytes, with a rest after each.
    Pieces(usize),
}

/// What a program has written, and its exit status, none where it was stopped by a signal.
#[derive(Clone, Debug, PartialEq, Eq)]
pub struct Ended {
    pub status: Option<i32>,
    pub out: Vec<u8>,
    pub errors: String,
}

/// The repository's root.
pub fn root() -> PathBuf {
    let package = env::current_dir().unwrap();
    package.parent().unwrap().to_path_buf()
}

/// The sheet program: what SHEET_PROGRAM names, else target/commands/sheet.
pub fn sheet() -> PathBuf {
    let made = || root().join("target/commands/sheet");
    let program = env::var_os("SHEET_PROGRAM").map_or_else(made, PathBuf::from);
    let name = program.display();
    assert!(program.is_file(), "no {name}: `./sheet` makes it");
    program
}

/// A program that has read enough may close the pipe.
fn deliver(mut pipe: ChildStdin, bytes: &[u8], delivery: Delivery) {
    let (size, rest) = match delivery {
        Delivery::AtOnce => (bytes.len().max(1), Duration::ZERO),
        Delivery::Pieces(size) => (size, Duration::from_micros(20)),
    };
    for piece in bytes.chunks(size) {
        if pipe.write_all(piece).is_err() {
            return;
        }
        thread::sleep(rest);
    }
}

/// Both outputs to their ends, or none where that takes too long.
fn gathered(child: &mut Child) -> Option<(Vec<u8>, Vec<u8>)> {
    fn gather(mut pipe: impl Read + Send + 'static) -> impl FnOnce() -> Option<Vec<u8>> {
        let (sender, receiver) = channel();
        thread::spawn(move || {
            let mut bytes = Vec::new();
            pipe.read_to_end(&mut bytes).unwrap();
            let _ = sender.send(bytes);
        });
        move || receiver.recv_timeout(TIME_LIMIT).ok()
    }
    let out = gather(child.stdout.take().unwrap());
    let errors = gather(child.stderr.take().unwrap());
    Some((out()?, errors()?))
}

/// Runs a command on these bytes.
pub fn run(command: &mut Command, bytes: &[u8], delivery: Delivery) -> Ended {
    command.stdin(Stdio::piped());
    command.stdout(Stdio::piped()).stderr(Stdio::piped());
    let mut child = command.spawn().unwrap();
    let pipe = child.stdin.take().unwrap();
    let bytes = bytes.to_vec();
    let writer = thread::spawn(move || deliver(pipe, &bytes, delivery));
    let Some((out, errors)) = gathered(&mut child) else {
        child.kill().unwrap();
        panic!("{command:?} did not end within {TIME_LIMIT:?}");
    };
    let status = child.wait().unwrap().code();
    writer.join().unwrap();
    Ended {
        status,
        out,
        errors: String::from_utf8_lossy(&errors).into_owned(),
    }
}

/// Runs the sheet program.
pub fn run_sheet(input: &Input, delivery: Delivery) -> Ended {
    let mut command = Command::new(sheet());
    command.args(input.argument.iter().map(|text| OsStr::from_bytes(text)));
    run(&mut command, &input.bytes, delivery)
}
