//! Tools for Verilog that others made, run as processes on texts in folders of their own.

pub mod icarus;
pub mod verilator;
pub mod yosys;

use crate::sheet::program::{run, Delivery, Ended};
use std::env;
use std::io::{stderr, Write};
use std::path::Path;
use std::process::Command;

/// What a test may go without: the tools that VERILOG_WITHOUT names, with blanks between. It says so,
/// past cargo, which hides what a passed test prints.
pub fn goes_without(tool: &str) -> bool {
    let named = env::var("VERILOG_WITHOUT").unwrap_or_default();
    let without = named.split_whitespace().any(|name| name == tool);
    if without {
        let words = format!("verilog_tools: goes without {tool}\n");
        stderr().write_all(words.as_bytes()).unwrap();
    }
    without
}

/// Runs a tool in a folder. One that is missing and not gone without fails the test.
fn call(tool: &str, folder: &Path, arguments: &[&str]) -> Ended {
    let found =
        env::split_paths(&env::var_os("PATH").unwrap()).any(|path| path.join(tool).is_file());
    assert!(
        found,
        "no {tool}: install it, or name it in VERILOG_WITHOUT"
    );
    let mut command = Command::new(tool);
    command.args(arguments).current_dir(folder);
    run(&mut command, b"", Delivery::AtOnce)
}

/// What a tool prints that has nothing to complain of.
fn calm(tool: &str, folder: &Path, arguments: &[&str]) -> String {
    let ended = call(tool, folder, arguments);
    assert_eq!((ended.status, ended.errors.as_str()), (Some(0), ""));
    String::from_utf8(ended.out).unwrap()
}
