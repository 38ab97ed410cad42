//! Random inputs and arguments of many kinds, so that every refusal and its order come up.

use super::input::{packed, Input};
use crate::random::Random;
use crate::taps::mixture::near_bits;

/// Arguments that are refused.
pub const BAD_ARGUMENTS: [&str; 30] = [
    "",
    "32",
    "032",
    "99",
    "100",
    "310",
    "4294967311",
    "4294967296",
    "18446744073709551631",
    "-1",
    "-0",
    "+5",
    " 5",
    "5 ",
    "5\n",
    "0x5",
    "1e1",
    "1.5",
    "15.",
    "abc",
    "15abc",
    "a15",
    "/",
    ":",
    "1:",
    "--help",
    "-",
    "\u{661}\u{665}",
    "\u{ff11}",
    "99999999999999999999999999",
];

/// Zeros in front of a long argument.
pub const MANY_ZEROS: usize = 100_000;

/// A whole number within bounds: of few bits, of any number of them, dense or with one digit.
fn coefficient(random: &mut Random) -> i64 {
    let power = 1i64 << random.below(32);
    let size = match random.below(8) {
        0 => 0,
        1 => power,
        2 => 0x5555_5555 >> random.below(31),
        3 => (1 << 31) - 1 - random.below(3) as i64,
        4 => power + (1 << random.below(32)),
        5 => (random.bits() >> 56) as i64,
        _ => (random.bits() >> random.from_to(33, 63)) as i64,
    };
    let n = if random.one_in(2) { size } else { -size };
    n.clamp(-1 << 31, (1 << 31) - 1)
}

/// The coefficients of a set; now and then they are the same from both ends.
fn coefficients(random: &mut Random, count: usize) -> Vec<i64> {
    let mut list: Vec<i64> = (0..count).map(|_| coefficient(random)).collect();
    if random.one_in(3) {
        for i in 0..count / 2 {
            list[count - 1 - i] = list[i];
        }
    }
    list
}

/// Taps that round to such coefficients, some exactly, and now and then any bits near the range.
fn taps(random: &mut Random, count: usize, fraction_bits: u32) -> Vec<f64> {
    let unit = 0.5f64.powi(fraction_bits as i32);
    let numbers = coefficients(random, count);
    let near = random.one_in(8);
    let tap = |n: i64| {
        if near {
            return f64::from_bits(near_bits(random, fraction_bits + 8));
        }
        let left = random.pick(&[0.0, 0.0, 0.25, -0.25, 0.499, -0.499]);
        (n as f64 + left) * unit
    };
    numbers.into_iter().map(tap).collect()
}

/// Now and then, taps that are not finite, or past the bounds, at random places.
fn spoil(random: &mut Random, taps: &mut [f64], fraction_bits: u32) {
    let edge = 2f64.powi(31 - fraction_bits as i32);
    let outside = [edge, -1.5 * edge, 1e300, -f64::MAX];
    let nan = f64::from_bits(0x7ff0_0000_0000_0000 | random.bits());
    let not_finite = [nan, f64::NAN, f64::INFINITY, -f64::INFINITY];
    for list in [outside, not_finite] {
        if !taps.is_empty() && random.one_in(8) {
            for _ in 0..random.below(3) + 1 {
                taps[random.below(taps.len())] = random.pick(&list);
            }
        }
    }
}

fn length(random: &mut Random) -> usize {
    match random.below(40) {
        0..=2 => 0,
        3 | 4 => 257 + random.below(4),
        5 => 256,
        6..=9 => 13 + random.below(50),
        _ => 1 + random.below(12),
    }
}

/// The digits of F, often with zeros in front.
fn digits(random: &mut Random, fraction_bits: u32) -> String {
    let zeros = match random.below(40) {
        0 => MANY_ZEROS,
        1..=9 => random.below(40),
        _ => 0,
    };
    "0".repeat(zeros) + &fraction_bits.to_string()
}

fn bad_argument(random: &mut Random) -> Vec<u8> {
    match random.below(4) {
        0 => random.bits().to_string().into_bytes(),
        1 => "0"
            .repeat(MANY_ZEROS)
            .into_bytes()
            .into_iter()
            .chain(*b"32")
            .collect(),
        _ => random.pick(&BAD_ARGUMENTS).as_bytes().to_vec(),
    }
}

/// Any input: 0 to 260 taps, now and then with a piece of one after them.
pub fn input(random: &mut Random) -> Input {
    let default = random.one_in(6);
    let fraction_bits = if default { 15 } else { random.below(32) as u32 };
    let count = length(random);
    let mut taps = taps(random, count, fraction_bits);
    spoil(random, &mut taps, fraction_bits);
    let mut bytes = packed(&taps);
    if random.one_in(10) {
        let piece = random.bits().to_le_bytes();
        bytes.extend(&piece[..1 + random.below(7)]);
    }
    let argument = match random.below(10) {
        0 => Some(bad_argument(random)),
        _ if default => None,
        _ => Some(digits(random, fraction_bits).into_bytes()),
    };
    Input { bytes, argument }
}

/// Random coefficients of 31 bits and both signs, at F = 0.
pub fn large_set(random: &mut Random, count: usize) -> Input {
    let tap = |_| random.sign() * (random.bits() >> 33) as f64;
    Input::new(&(0..count).map(tap).collect::<Vec<_>>(), "0")
}
