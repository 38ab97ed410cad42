//! tools/verilog with tools that are there, missing, and installed by a stand-in for apt-get.

use fir_tests::commands::Folder;
use fir_tests::sheet::program::{root, run, Delivery};
use std::fs::{read_to_string, set_permissions, write, Permissions};
use std::os::unix::fs::{symlink, PermissionsExt};
use std::process::Command;
use std::sync::Mutex;

/// Notes its call, and installs all but verilator.
const APT_GET: &str = "#!/bin/sh
here=$(dirname \"$0\")
echo \"$*\" >>\"$here/calls\"
for last; do :; done
case $last in
iverilog | yosys) ln -s /bin/true \"$here/$last\" ;;
verilator) exit 100 ;;
esac
";

/// A folder with a few programs, these tools, and a user of this number; with apt-get or without.
fn machine(tools: &[&str], user: u32, apt_get: bool) -> Folder {
    let folder = Folder::new();
    for name in ["bash", "env", "timeout", "sh", "dirname", "ln"] {
        let path = run(
            Command::new("sh").args(["-c", &format!("command -v {name}")]),
            b"",
            Delivery::AtOnce,
        );
        let path = String::from_utf8(path.out).unwrap();
        symlink(path.trim(), folder.join(name)).unwrap();
    }
    let program = |name: &str, text: &str| {
        write(folder.join(name), text).unwrap();
        set_permissions(folder.join(name), Permissions::from_mode(0o755)).unwrap();
    };
    program("id", &format!("#!/bin/sh\necho {user}\n"));
    tools.iter().for_each(|tool| program(tool, "#!/bin/sh\n"));
    if apt_get {
        program("apt-get", APT_GET);
    }
    folder
}

/// One test at a time: a program just written cannot be run while a process that another test began
/// still has it open.
static TURN: Mutex<()> = Mutex::new(());

/// What tools/verilog prints there, and the calls of apt-get.
fn printed(machine: &Folder) -> (String, String) {
    let mut command = Command::new(root().join("tools/verilog"));
    let ended = run(command.env("PATH", machine.path()), b"", Delivery::AtOnce);
    assert_eq!((ended.status, ended.errors.as_str()), (Some(0), ""));
    let calls = read_to_string(machine.join("calls")).unwrap_or_default();
    (String::from_utf8(ended.out).unwrap(), calls)
}

#[test]
fn nothing_is_installed_where_all_are_there() {
    let _turn = TURN.lock();
    let machine = machine(&["iverilog", "verilator", "yosys"], 0, true);
    assert_eq!(printed(&machine), (String::new(), String::new()));
}

#[test]
fn missing_ones_are_installed() {
    let _turn = TURN.lock();
    let machine = machine(&[], 0, true);
    let (still_missing, calls) = printed(&machine);
    assert_eq!(still_missing, "verilator\n");
    let install = |tool| format!("-qq -y --no-install-recommends install {tool}\n");
    let wanted = ["iverilog", "verilator", "yosys"].map(install).concat();
    assert_eq!(calls, format!("-qq update\n{wanted}"));
}

#[test]
fn those_that_may_not_be_installed_are_named() {
    let _turn = TURN.lock();
    let all = "iverilog verilator yosys\n";
    let none = String::new();
    assert_eq!(
        printed(&machine(&[], 1000, true)),
        (all.into(), none.clone())
    );
    assert_eq!(printed(&machine(&[], 0, false)), (all.into(), none.clone()));
    let one = machine(&["verilator"], 1000, true);
    assert_eq!(printed(&one), ("iverilog yosys\n".into(), none));
}
