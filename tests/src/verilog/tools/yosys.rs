//! Yosys, which reads texts and proves one equal to multiplications.

use super::{call, calm};
use crate::commands::Folder;
use std::fmt::Write;
use std::fs::write;

pub const NAME: &str = "yosys";

const PROOF: &str = "read_verilog gold.v smoother.v; miter -equiv -flatten gold smoother miter; \
    hierarchy -top miter; proc; alumacc; opt; sat -verify -prove trigger 0 miter";
const NOT_PROVED: &str = "Called with -verify and proof did fail!";

/// Reads the texts one by one, and has nothing to complain of.
pub fn reads(texts: &[String]) {
    let folder = Folder::new();
    let mut script = String::new();
    for (i, text) in texts.iter().enumerate() {
        write(folder.join(&format!("{i}.v")), text).unwrap();
        writeln!(script, "read_verilog {i}.v\nhierarchy -check -top smoother").unwrap();
        writeln!(script, "design -reset").unwrap();
    }
    write(folder.join("script.ys"), script).unwrap();
    assert_eq!(calm(NAME, folder.path(), &["-q", "script.ys"]), "");
}

/// A module that multiplies the sample by each coefficient.
fn multiplier(coefficients: &[i32]) -> String {
    let mut ports = String::from("input signed [15:0] x");
    let mut assigns = String::new();
    for (k, h) in coefficients.iter().enumerate() {
        write!(ports, ", output signed [63:0] t{k}").unwrap();
        let sign = if *h < 0 { "-" } else { "" };
        let size = h.unsigned_abs();
        writeln!(assigns, "assign t{k} = {sign}64'sd{size} * x;").unwrap();
    }
    format!("module gold({ports});\n{assigns}endmodule\n")
}

/// Whether the text gives the products for every sample, as proved by Yosys.
pub fn multiplies(text: &str, coefficients: &[i32]) -> bool {
    let folder = Folder::new();
    write(folder.join("smoother.v"), text).unwrap();
    write(folder.join("gold.v"), multiplier(coefficients)).unwrap();
    let ended = call(NAME, folder.path(), &["-q", "-p", PROOF]);
    let proved = ended.status == Some(0);
    assert_eq!(
        !proved,
        ended.errors.contains(NOT_PROVED),
        "{}",
        ended.errors
    );
    proved
}
