//! One network through the core and the fast version, each compared with the literal one.

use fir_tests::answer::{Answer, ACCEPTED};
use fir_tests::network::call::{self, Checker, Reader};
use fir_tests::network::{core, fast, literal, Network};
use fir_tests::refusals::Refusals;

const CHECKERS: [Checker; 2] = [core::check, fast::check];
const READERS: [Reader; 2] = [core::coefficients, fast::coefficients];

/// What came up, counted by the literal version.
#[derive(Default)]
pub struct Tally {
    pub accepted: usize,
    pub refusals: Refusals,
    /// Coefficients at the ends of the range, and zeros.
    pub least: usize,
    pub greatest: usize,
    pub zeros: usize,
}

impl Tally {
    fn accept(&mut self, coefficients: &[i32]) {
        let often = |n: i32| coefficients.iter().filter(|c| **c == n).count();
        self.accepted += 1;
        self.least += often(i32::MIN);
        self.greatest += often(i32::MAX);
        self.zeros += often(0);
    }
}

pub fn show(network: &Network) -> String {
    let (rows, taps) = (network.row_count.min(20), network.tap_count.min(20));
    let rows: Vec<&[u32]> = network.rows.chunks(5).take(rows).collect();
    let taps: Vec<&[u32]> = network.taps.chunks(3).take(taps).collect();
    format!(
        "{} rows in {} words, {} taps in {} words: {rows:?}.. {taps:?}..",
        network.row_count,
        network.rows.len(),
        network.tap_count,
        network.taps.len()
    )
}

/// The answer of the checking entries, and what the coefficients' entries do with such a table.
pub fn check(network: &Network, table: usize, tally: &mut Tally) -> Answer {
    let refusals = literal::refusals(network, false);
    let answer = refusals.first().copied().unwrap_or(ACCEPTED);
    let before = network.clone();
    for (which, checker) in CHECKERS.into_iter().enumerate() {
        assert_eq!(checker(network), answer, "{which}: {}", show(network));
    }
    check_coefficients(network, table, tally);
    assert!(*network == before, "{}", show(network));
    answer
}

fn check_coefficients(network: &Network, table: usize, tally: &mut Tally) {
    let short = table < network.tap_count;
    let result = literal::coefficients(network, short);
    let wanted = call::wanted(table, &result);
    for (which, reader) in READERS.into_iter().enumerate() {
        let outcome = call::run(network, table, reader);
        let at = || format!("{which}, table of {table}: {}", show(network));
        assert_eq!(outcome, wanted, "{}", at());
    }
    match result {
        Ok(coefficients) => tally.accept(&coefficients),
        Err(_) => tally.refusals.count(&literal::refusals(network, short)),
    }
}
