//! Nanoseconds a tap, rounded one by one and as sets: taps of several kinds, so that one on which a
//! branch goes wrong is seen, and sets of several sizes.

use super::{best, print, print_head};
use fir_tests::answer::{TapAnswer, ACCEPTED};
use fir_tests::random::Random;
use fir_tests::taps::set::Entry;
use fir_tests::taps::{core, fast};
use std::f64::consts::PI;
use std::hint::black_box;

pub const FRACTION_BITS: u32 = 15;
const UNIT: f64 = 1.0 / (1 << FRACTION_BITS) as f64;
const MOST_TAPS: usize = 256;
/// Taps of a kind: more than a processor can learn the halves of.
const TAPS_TIMED: usize = 64 * MOST_TAPS;

/// Makes a tap above -1 and below 1.
type Kind = fn(&mut Random) -> f64;

const KINDS: [(&str, Kind); 5] = [
    ("random", Random::unit),
    ("a quarter halves", |random| match random.one_in(4) {
        true => a_half(random),
        false => random.unit(),
    }),
    ("halves", a_half),
    ("whole or not", |random| match random.one_in(2) {
        true => whole(random),
        false => random.unit(),
    }),
    ("whole", whole),
];

/// Times 2^F a whole number.
fn whole(random: &mut Random) -> f64 {
    random.from_to(-32767, 32766) as f64 * UNIT
}

/// Times 2^F a whole number and a half.
fn a_half(random: &mut Random) -> f64 {
    whole(random) + UNIT / 2.0
}

/// Taps of a kind, in sets of a size; no set has a sum near 0.
fn taps_of(kind: Kind, size: usize) -> Vec<f64> {
    let mut random = Random::new(3);
    let mut set = || loop {
        let taps: Vec<f64> = (0..size).map(|_| kind(&mut random)).collect();
        if taps.iter().sum::<f64>().abs() > 0.1 {
            return taps;
        }
    };
    (0..TAPS_TIMED / size).flat_map(|_| set()).collect()
}

/// A low-pass of 101 taps with a Hamming window, its edge at an eighth of the sample rate.
pub fn low_pass() -> Vec<f64> {
    let tap = |i: i32| {
        let x = (i - 50) as f64;
        let ideal = if i == 50 {
            0.25
        } else {
            (0.25 * PI * x).sin() / (PI * x)
        };
        ideal * (0.54 - 0.46 * (PI * i as f64 / 50.0).cos())
    };
    (0..=100).map(tap).collect()
}

fn one_by_one(taps: &[f64], round: impl Fn(u64, u32) -> TapAnswer) {
    for tap in taps {
        black_box(round(black_box(tap.to_bits()), black_box(FRACTION_BITS)));
    }
}

fn as_sets(taps: &[f64], size: usize, normalised: u32, round: Entry, table: &mut [i32]) {
    let (mut divisor, mut leftover) = (0.0, 0.0);
    for set in taps.chunks(size) {
        let answer = round(
            black_box(set),
            black_box(FRACTION_BITS),
            black_box(normalised),
            black_box(table),
            &mut divisor,
            &mut leftover,
        );
        assert_eq!(answer, ACCEPTED);
        black_box((&table, divisor, leftover));
    }
}

fn measure_one(taps: &[f64]) {
    let mut by_core = || one_by_one(taps, core::round_tap);
    let mut by_fast = || one_by_one(taps, fast::round_tap);
    print("one tap", best([&mut by_core, &mut by_fast]), taps.len());
}

fn measure_sets(what: &str, taps: &[f64], size: usize, normalised: u32) {
    let mut tables = [[0; MOST_TAPS]; 2];
    let [a, b] = &mut tables;
    let mut by_core = || as_sets(taps, size, normalised, core::round_taps, a);
    let mut by_fast = || as_sets(taps, size, normalised, fast::round_taps, b);
    let times = best([&mut by_core, &mut by_fast]);
    assert_eq!(tables[0], tables[1]);
    print(what, times, taps.len());
}

pub fn run() {
    for (what, kind) in KINDS {
        print_head(&format!("Taps: {what}"), &["fast"]);
        let taps = taps_of(kind, MOST_TAPS);
        measure_one(&taps);
        measure_sets("sets of 256", &taps, MOST_TAPS, 0);
    }
    // Normalised sets stand here alone: of whatever kind the taps are, the quotients are random.
    print_head("Sizes: random", &["fast"]);
    for size in [MOST_TAPS, 64, 16, 4, 1] {
        let taps = taps_of(Random::unit, size);
        for (what, normalised) in [("", 0), (", normalised", 1)] {
            measure_sets(&format!("sets of {size}{what}"), &taps, size, normalised);
        }
    }
    print_head("101-tap Hamming low-pass", &["fast"]);
    let taps = low_pass().repeat(TAPS_TIMED / 101);
    measure_one(&taps);
    measure_sets("sets of 101", &taps, 101, 0);
    measure_sets("sets of 101, normalised", &taps, 101, 1);
}
