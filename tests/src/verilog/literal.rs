//! The text as the request states it, line by line, and its refusals. Slow on purpose.

use super::LEAST_BYTES;
use crate::answer::Answer;
use crate::network::{literal, Network, MINUS, NONE, PLUS, REVERSED, ROW_WORDS, TAP_WORDS};

fn module(tap_count: usize) -> String {
    let mut ports = vec!["input signed [15:0] x".to_string()];
    for k in 0..tap_count {
        ports.push(format!("output signed [63:0] t{k}"));
    }
    format!("module smoother({});", ports.join(", "))
}

fn row(i: usize, words: &[u32]) -> String {
    if i == 0 {
        return "assign n0 = x;".to_string();
    }
    let (left, right, shift) = (words[0], words[1], words[2]);
    match words[3] {
        PLUS => format!("assign n{i} = (n{left} <<< {shift}) + n{right};"),
        MINUS => format!("assign n{i} = (n{left} <<< {shift}) - n{right};"),
        REVERSED => format!("assign n{i} = n{right} - (n{left} <<< {shift});"),
        sign => panic!("row {i} has the sign {sign}"),
    }
}

fn tap(k: usize, words: &[u32]) -> String {
    let (row, shift) = (words[1], words[2]);
    match words[0] {
        NONE => format!("assign t{k} = 0;"),
        PLUS => format!("assign t{k} = n{row} <<< {shift};"),
        MINUS => format!("assign t{k} = -(n{row} <<< {shift});"),
        sign => panic!("tap {k} has the sign {sign}"),
    }
}

/// The text of a network that keeps the rules.
pub fn text(network: &Network) -> String {
    let rows = network.rows.chunks(ROW_WORDS).take(network.row_count);
    let taps = network.taps.chunks(TAP_WORDS).take(network.tap_count);
    let mut lines = vec![module(network.tap_count)];
    lines.extend((0..network.row_count).map(|i| format!("wire signed [63:0] n{i};")));
    lines.extend(rows.enumerate().map(|(i, words)| row(i, words)));
    lines.extend(taps.enumerate().map(|(k, words)| tap(k, words)));
    lines.push("endmodule".to_string());
    lines.iter().map(|line| format!("{line}\n")).collect()
}

/// Every refusal that applies, down the table; the first is returned. A network that breaks the rules
/// has no text, so 13 then applies where no text fits.
pub fn refusals(network: &Network, area: usize) -> Vec<Answer> {
    let mut refusals = literal::refusals(network, false);
    let length = match refusals.is_empty() {
        true => text(network).len(),
        false => LEAST_BYTES,
    };
    if length > area {
        refusals.push(Answer {
            refusal: 13,
            place: 0,
        });
    }
    refusals
}

/// The text, or the refusal.
pub fn verilog(network: &Network, area: usize) -> Result<String, Answer> {
    match refusals(network, area).first() {
        Some(refusal) => Err(*refusal),
        None => Ok(text(network)),
    }
}
