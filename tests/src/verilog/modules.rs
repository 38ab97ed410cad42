//! Random modules of the forms that the reader knows: nets of every width and of both signs, and
//! expressions over them, with parentheses and without.

use crate::random::Random;

const WIRES: usize = 6;
const OUTPUTS: usize = 12;

fn declared(random: &mut Random, name: &str) -> String {
    let signed = random.pick(&["signed ", "signed ", ""]);
    let any = 1 + random.below(64);
    let width = random.pick(&[1, 4, 8, 16, 32, 33, 63, 64, 64, any, any]);
    format!("{signed}[{}:0] {name}", width - 1)
}

fn operand(random: &mut Random, nets: &[String], depth: usize) -> String {
    let minus = random.pick(&["", "", "", "-"]);
    match random.below(8) {
        0 | 1 => format!("{minus}{}", random.below(40)),
        2 | 3 if depth > 0 => format!("{minus}({})", expression(random, nets, depth - 1)),
        _ => format!("{minus}{}", nets[random.below(nets.len())]),
    }
}

fn expression(random: &mut Random, nets: &[String], depth: usize) -> String {
    let mut text = operand(random, nets, depth);
    for _ in 0..random.below(4) {
        let operator = random.pick(&[" + ", " - ", " <<< "]);
        text += operator;
        text += &operand(random, nets, depth);
    }
    text
}

/// Wires are assigned from the input and the wires before them, outputs from both.
pub fn module(random: &mut Random) -> String {
    let mut nets = vec!["x".to_string()];
    let mut lines = Vec::new();
    for i in 0..WIRES {
        let name = format!("w{i}");
        let right_side = expression(random, &nets, 2);
        lines.push(format!("wire {};", declared(random, &name)));
        lines.push(format!("assign {name} = {right_side};"));
        nets.push(name);
    }
    let input = random.pick(&["input signed [15:0] x", "input [15:0] x"]);
    let mut ports = vec![input.to_string()];
    for k in 0..OUTPUTS {
        let name = format!("t{k}");
        ports.push(format!("output {}", declared(random, &name)));
        let right_side = expression(random, &nets, 2);
        lines.push(format!("assign {name} = {right_side};"));
    }
    let (ports, lines) = (ports.join(", "), lines.join("\n"));
    format!("module smoother({ports});\n{lines}\nendmodule\n")
}
