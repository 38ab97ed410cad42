//! What the tools say of themselves.

use fir_tests::sheet::program::{root, run, Delivery, Ended};
use std::process::Command;

fn tool(name: &str, argument: &str) -> Ended {
    let mut command = Command::new(root().join("tools").join(name));
    run(command.arg(argument), b"", Delivery::AtOnce)
}

#[test]
fn help() {
    for name in ["believed", "families", "verilog"] {
        let help = tool(name, "--help");
        assert_eq!((help.status, help.errors.as_str()), (Some(0), ""));
        let text = String::from_utf8(help.out).unwrap();
        assert!(text.starts_with(&format!("usage: tools/{name}")));
        let ended = tool(name, "--no-such-option");
        assert_eq!((ended.status, ended.out.len()), (Some(2), 0));
        assert_eq!(ended.errors, text);
    }
}
