//! Sets with a pattern, in families: odd parts that share their low or their high bits, or stand
//! evenly, are what an index or a search may be slow for.

use super::bounds;
use crate::network::MOST_TAPS;
use crate::random::Random;

pub struct Set {
    pub what: String,
    pub coefficients: Vec<i32>,
}

pub struct Family {
    pub what: String,
    pub sets: Vec<Set>,
}

/// How many coefficients a random set has, and one with another pattern.
const RANDOM_COUNTS: [usize; 14] = [1, 2, 4, 8, 16, 24, 32, 48, 64, 65, 96, 128, 192, MOST_TAPS];
const COUNTS: [usize; 3] = [8, 64, MOST_TAPS];

/// The front of a sequence, once for each count.
fn fronts(what: &str, counts: &[usize], next: impl FnMut(i64) -> i64) -> Vec<Set> {
    let all = (0..MOST_TAPS as i64).map(next);
    let all: Vec<i32> = all.map(|n| n.try_into().unwrap()).collect();
    let front = |count: &usize| Set {
        what: format!("{count:>3} of {what}"),
        coefficients: all[..*count].to_vec(),
    };
    counts.iter().map(front).collect()
}

fn pattern(what: &str, next: impl FnMut(i64) -> i64) -> Vec<Set> {
    fronts(what, &COUNTS, next)
}

fn random_bits(random: &mut Random, bits: u32) -> i64 {
    (random.bits() >> (64 - bits)) as i64
}

fn random_parts(bits: u32) -> Family {
    let mut random = Random::new(100 + bits as u64);
    let next = |_| random_bits(&mut random, bits) | 1;
    Family {
        what: format!("random odd parts of {bits} bits"),
        sets: fronts(&format!("{bits} bits"), &RANDOM_COUNTS, next),
    }
}

fn family(what: &str, sets: impl IntoIterator<Item = Vec<Set>>) -> Family {
    Family {
        what: what.into(),
        sets: sets.into_iter().flatten().collect(),
    }
}

fn arithmetic() -> Family {
    let by_powers = [1, 4, 8, 10, 14, 18, 20, 22]
        .map(|shift| pattern(&format!("1 + k 2^{shift}"), |k| 1 + (k << shift)));
    let others = [
        pattern("2^30 + 2k + 1", |k| (1 << 30) + 2 * k + 1),
        pattern("2^30 + k 2^9 + 1", |k| (1 << 30) + (k << 9) + 1),
        pattern("1 + 12345678 k mod 2^31", |k| {
            (1 + 12_345_678 * k) % (1 << 31)
        }),
        pattern("1 + 1617102 k", |k| 1 + 1_617_102 * k),
        pattern("1 + 7335618 k", |k| 1 + 7_335_618 * k),
        pattern("1287032245 + 946 k", |k| 1_287_032_245 + 946 * k),
        pattern("1563379189 + 316 k", |k| 1_563_379_189 + 316 * k),
    ];
    family(
        "arithmetic progressions",
        by_powers.into_iter().chain(others),
    )
}

/// How slow an index or a search is goes by the step, and nobody knows the worst one.
fn random_steps() -> Family {
    let mut random = Random::new(10);
    let sets = (0..8).map(|_| {
        let step = 2 * random_bits(&mut random, 30);
        let what = format!("1 + {step} k mod 2^31");
        pattern(&what, |k| (1 + step * k) % (1 << 31))
    });
    family("progressions of random steps", sets)
}

fn geometric() -> Family {
    let mut power = 1;
    let next = |_| {
        let now = power;
        power = 3 * power % (1 << 31);
        now
    };
    let sets = [
        pattern("3^k mod 2^31", next),
        pattern("1.0865^k", |k| 1.0865f64.powi(k as i32) as i64),
    ];
    family("geometric progressions", sets)
}

/// The bits of a number in reverse, from the highest of 31 down.
fn reversed(number: i64) -> i64 {
    (number as u32).reverse_bits() as i64 >> 1 | 1
}

fn reversed_bits() -> Family {
    let mut random = Random::new(5);
    let sets = [
        pattern("2k + 1 reversed", |k| reversed(2 * k + 1)),
        pattern("16 random bits reversed", |_| {
            reversed(random_bits(&mut random, 16))
        }),
    ];
    family("reversed bits", sets)
}

fn changed_bits() -> Family {
    let sets = [
        pattern("0x55555555 ^ k 2", |k| 0x5555_5555 ^ (k << 1)),
        pattern("0x55555555 ^ k 2^22", |k| 0x5555_5555 ^ (k << 22)),
    ];
    family("one number with changed bits", sets)
}

fn shared_bits() -> Family {
    let [mut a, mut b, mut c] = [6, 7, 8].map(Random::new);
    let sets = [
        pattern("2^30 + 14 random bits", |_| {
            (1 << 30) + (random_bits(&mut a, 14) | 1)
        }),
        pattern("5 2^28 + 20 random bits", |_| {
            (5 << 28) + (random_bits(&mut b, 20) | 1)
        }),
        pattern("12 random bits 2^19 + 1", |_| {
            (random_bits(&mut c, 12) << 19) + 1
        }),
    ];
    family("shared high or low bits", sets)
}

fn sizes() -> Family {
    let mut random = Random::new(9);
    let mixed = |_| {
        let bits = 2 + random.below(30) as u32;
        random_bits(&mut random, bits) | 1
    };
    let sets = [
        pattern("2 to 31 random bits", mixed),
        pattern("2k + 1", |k| 2 * k + 1),
        pattern("0x2aaaaaab", |_| 0x2aaa_aaab),
    ];
    family("mixed sizes, all odd, all equal", sets)
}

/// Sets of odd parts of one weight, and of so many rows at most.
fn row_bounds() -> Family {
    let set = |(weight, bound)| Set {
        what: format!("weight {weight}, bound {bound}"),
        coefficients: bounds::set(weight, bound),
    };
    Family {
        what: "bounds on rows".into(),
        sets: bounds::ALL.map(set).into(),
    }
}

pub fn families() -> Vec<Family> {
    let random = [8, 12, 16, 24, 31].map(random_parts);
    let others = [
        arithmetic(),
        random_steps(),
        geometric(),
        reversed_bits(),
        changed_bits(),
        shared_bits(),
        sizes(),
        row_bounds(),
    ];
    random.into_iter().chain(others).collect()
}
