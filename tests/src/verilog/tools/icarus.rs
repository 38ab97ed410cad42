//! Icarus Verilog: the outputs of a text for inputs.

use super::calm;
use crate::commands::Folder;
use crate::verilog::reader::{Module, Net};
use std::fs::write;
use std::ops::RangeInclusive;

pub const NAME: &str = "iverilog";

/// Inputs, one after another.
pub enum Inputs<'a> {
    These(&'a [i16]),
    All(RangeInclusive<i16>),
}

/// The declaration of a net of the bench.
fn declared(kind: &str, net: &Net) -> String {
    let signed = if net.signed { "signed " } else { "" };
    format!("{kind} {signed}[{}:0] {};\n", net.width - 1, net.name)
}

/// The calls that show the outputs for each input.
fn calls(inputs: &Inputs) -> String {
    match inputs {
        Inputs::These(list) => list.iter().map(|x| format!("show({x});\n")).collect(),
        Inputs::All(range) => {
            let (first, last) = (range.start(), range.end());
            format!("for (i = {first}; i <= {last}; i = i + 1) show(i);\n")
        }
    }
}

/// A module that hands the inputs over and prints the outputs, a line for each input. The input is
/// unknown before each: from there every net changes once, while from one input to another the nets of
/// a long chain change over and over.
fn bench(module: &Module, inputs: &Inputs) -> String {
    let (input, outputs) = (&module.nets[0], &module.nets[1..1 + module.outputs]);
    let names: Vec<&str> = outputs.iter().map(|net| net.name.as_str()).collect();
    let (names, fields) = (names.join(", "), vec!["%0d"; names.len()].join(" "));
    let wires: String = outputs.iter().map(|net| declared("wire", net)).collect();
    let (name, x) = (&module.name, &input.name);
    [
        format!(
            "module bench;\ninteger i;\n{}{wires}",
            declared("reg", input)
        ),
        format!("{name} tried({x}, {names});\n"),
        format!("task show;\ninput [15:0] next;\nbegin\n{x} = 16'bx; #1 {x} = next; #1\n"),
        format!("$display(\"{fields}\", {names});\nend\nendtask\n"),
        format!("initial begin\n{}end\nendmodule\n", calls(inputs)),
    ]
    .concat()
}

/// The outputs for each input, where Icarus has no warning; the module says what the ports are.
pub fn outputs(text: &str, module: &Module, inputs: &Inputs) -> Vec<Vec<i128>> {
    let folder = Folder::new();
    write(folder.join("smoother.v"), text).unwrap();
    write(folder.join("bench.v"), bench(module, inputs)).unwrap();
    let arguments = ["-g2005", "-Wall", "-o", "bench", "smoother.v", "bench.v"];
    assert_eq!(calm(NAME, folder.path(), &arguments), "");
    let printed = calm("vvp", folder.path(), &["-n", "bench"]);
    let number = |field: &str| field.parse::<i128>().unwrap();
    let line = |line: &str| line.split(' ').map(number).collect();
    printed.lines().map(line).collect()
}
