//! Nanoseconds a call and a row for building a network.

use super::taps::low_pass;
use super::{best, print, print_head};
use fir_tests::answer::ACCEPTED;
use fir_tests::building::call::Builder;
use fir_tests::building::{core, fast};
use fir_tests::network::{MOST_TAPS, ROW_TABLE, TAP_TABLE};
use fir_tests::random::Random;
use std::hint::black_box;

/// What a builder leaves.
#[derive(PartialEq)]
pub struct Lent {
    rows: Vec<u32>,
    taps: Vec<u32>,
    pub row_count: usize,
}

impl Lent {
    pub fn new() -> Self {
        Lent {
            rows: vec![0; ROW_TABLE],
            taps: vec![0; TAP_TABLE],
            row_count: 0,
        }
    }

    /// So many calls, all with the first form of each coefficient and in the same tables.
    #[inline(always)]
    pub fn build(&mut self, coefficients: &[i32], calls: usize, builder: Builder) {
        let choices = &[0; MOST_TAPS][..coefficients.len()];
        for _ in 0..calls {
            let (rows, taps) = (black_box(&mut self.rows), black_box(&mut self.taps));
            let coefficients = black_box(coefficients);
            let answer = builder(coefficients, choices, rows, taps, &mut self.row_count);
            assert_eq!(answer, ACCEPTED);
        }
    }
}

fn measure(what: &str, coefficients: &[i32], calls: usize) {
    let mut lent = [Lent::new(), Lent::new()];
    let [a, b] = &mut lent;
    let mut by_core = || a.build(coefficients, calls, core::build);
    let mut by_fast = || b.build(coefficients, calls, fast::build);
    let times = best([&mut by_core, &mut by_fast]);
    assert!(lent[0] == lent[1]);
    let rows = lent[0].row_count;
    print_head(&format!("{what}, {rows} rows"), &["fast"]);
    print("building, a call", times, calls);
    print("building, a row", times, calls * rows);
}

/// So many random bits for each of 256 coefficients.
fn random_bits(seed: u64, bits: u32) -> Vec<i32> {
    let mut random = Random::new(seed);
    let mut next = || (random.bits() >> (64 - bits)) as i32;
    (0..MOST_TAPS).map(|_| next()).collect()
}

/// The low-pass, rounded.
fn low_pass_at(fraction_bits: u32) -> Vec<i32> {
    let taps = low_pass();
    let mut coefficients = vec![0; taps.len()];
    let (mut divisor, mut leftover) = (0.0, 0.0);
    let answer = fir_tests::taps::fast::round_taps(
        &taps,
        fraction_bits,
        0,
        &mut coefficients,
        &mut divisor,
        &mut leftover,
    );
    assert_eq!(answer, ACCEPTED);
    coefficients
}

pub fn run() {
    measure("256 of 31 bits", &random_bits(2, 31), 1);
    measure("256 of 16 bits", &random_bits(3, 16), 10);
    measure("low-pass, F = 15", &low_pass_at(15), 20);
    measure("low-pass, F = 24", &low_pass_at(24), 20);
    measure("taps 3, -6, 45, 0", &[3, -6, 45, 0], 500);
}
