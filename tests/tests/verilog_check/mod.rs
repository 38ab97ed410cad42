//! One network through the core and the fast version, each compared with the literal text.

use fir_tests::answer::Answer;
use fir_tests::network::Network;
use fir_tests::refusals::Refusals;
use fir_tests::verilog::call::{self, Writer};
use fir_tests::verilog::{core, fast, literal};

const WRITERS: [(&str, Writer); 2] = [("core", core::verilog), ("fast", fast::verilog)];

/// What came up, counted by the literal version.
#[derive(Default)]
pub struct Tally {
    pub accepted: usize,
    pub refusals: Refusals,
    /// Texts that just fit, and refused ones that are one byte too long.
    pub just: usize,
    pub past: usize,
}

pub fn show(network: &Network) -> String {
    let (rows, taps) = (network.row_count.min(20), network.tap_count.min(20));
    let rows: Vec<&[u32]> = network.rows.chunks(5).take(rows).collect();
    let taps: Vec<&[u32]> = network.taps.chunks(3).take(taps).collect();
    format!(
        "{} rows in {} words, {} taps in {} words: {rows:?}.. {taps:?}..",
        network.row_count,
        network.rows.len(),
        network.tap_count,
        network.taps.len()
    )
}

/// The text that the core writes into an area of so many bytes, or its refusal.
pub fn check(network: &Network, area: usize, tally: &mut Tally) -> Result<String, Answer> {
    let refusals = literal::refusals(network, area);
    let result = match refusals.first() {
        Some(refusal) => Err(*refusal),
        None => Ok(literal::text(network)),
    };
    let wanted = call::wanted(area, &result);
    for (name, writer) in WRITERS {
        let given = network.clone();
        let outcome = call::run(&given, area, writer);
        let at = || format!("{name}, area of {area}: {}", show(network));
        assert!(outcome == wanted, "{}: {}", at(), outcome.differs(&wanted));
        assert!(given == *network, "input changed, {}", at());
    }
    match &result {
        Ok(text) => {
            tally.accepted += 1;
            tally.just += (text.len() == area) as usize;
        }
        Err(refusal) => {
            tally.refusals.count(&refusals);
            tally.past +=
                (refusal.refusal == 13 && literal::text(network).len() == area + 1) as usize;
        }
    }
    result
}
