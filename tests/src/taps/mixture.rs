//! Random taps and random sets, of many kinds, so that every refusal and its order come up.

use super::hard::FRACTION_BITS_PAST;
use super::set::Set;
use crate::random::Random;

/// Fraction bits from 0 to 33.
pub fn fraction_bits(random: &mut Random) -> u32 {
    random.below(34) as u32
}

/// Bits whose number times 2^F is from 2^-4 to 2^34, often a whole number, an exact half or beside
/// one.
pub fn near_bits(random: &mut Random, fraction_bits: u32) -> u64 {
    let fraction = (1 << 52) - 1;
    let exponent = random.from_to(-4, 33);
    let field = (1023 + exponent - fraction_bits as i64) as u64;
    let bits = random.bits() & (1 << 63 | fraction) | field << 52;
    if exponent < -1 || random.one_in(3) {
        return bits;
    }
    // The fraction's bit that is worth a half is the last, or there is none.
    let half = 1u64 << (51 - exponent);
    let last = random.pick(&[0, half, half]);
    let exact = bits & !(fraction & (2 * half - 1)) | fraction & last;
    random.pick(&[exact, exact - 1, exact + 1])
}

/// Uniform bits, or bits near the range that matters.
pub fn tap_bits(random: &mut Random, fraction_bits: u32) -> u64 {
    if random.one_in(2) {
        random.bits()
    } else {
        near_bits(random, fraction_bits)
    }
}

fn unit(fraction_bits: u32) -> f64 {
    0.5f64.powi(fraction_bits.min(31) as i32)
}

/// A whole number of up to 31 bits, often a small one.
fn whole(random: &mut Random) -> f64 {
    let shift = random.from_to(33, 63);
    random.sign() * (random.bits() >> shift) as f64
}

type Kind = fn(&mut Random, usize, u32) -> Vec<f64>;

const KINDS: [Kind; 13] = [
    even, grid, unit_sum, twins, near, wide, subnormal, huge, raw, cancelling, zeros, lost, drowned,
];

fn repeat(count: usize, mut make: impl FnMut() -> f64) -> Vec<f64> {
    (0..count).map(|_| make()).collect()
}

/// Evenly spread, within bounds.
fn even(random: &mut Random, count: usize, fraction_bits: u32) -> Vec<f64> {
    let size = 2f64.powi(random.from_to(0, 31) as i32) * unit(fraction_bits);
    repeat(count, || random.unit() * size)
}

/// Multiples of 2^-F, of half of it or of a quarter.
fn grid(random: &mut Random, count: usize, fraction_bits: u32) -> Vec<f64> {
    let step = unit(fraction_bits) * random.pick(&[1.0, 0.5, 0.25]);
    repeat(count, || whole(random) * step)
}

/// The same, with a last tap that makes the sum a power of two or its negative.
fn unit_sum(random: &mut Random, count: usize, fraction_bits: u32) -> Vec<f64> {
    let mut taps = grid(random, count, fraction_bits);
    let step = random.pick(&[0.25, 0.5, 1.0, 2.0, 1024.0]) * unit(fraction_bits);
    if let Some((last, others)) = taps.split_last_mut() {
        *last = random.sign() * step - others.iter().sum::<f64>();
    }
    taps
}

/// Whole numbers plus or minus one and the same leftover, times 2^-F.
fn twins(random: &mut Random, count: usize, fraction_bits: u32) -> Vec<f64> {
    let left = 0.5f64.powi(random.from_to(1, 10) as i32);
    repeat(count, || {
        let whole = random.from_to(-1000, 1000) as f64;
        (whole + random.sign() * left) * unit(fraction_bits)
    })
}

fn near(random: &mut Random, count: usize, fraction_bits: u32) -> Vec<f64> {
    let smaller = random.from_to(0, 8) as u32 + fraction_bits.min(31);
    repeat(count, || f64::from_bits(near_bits(random, smaller)))
}

/// Normal numbers of every size.
fn wide(random: &mut Random, count: usize, _: u32) -> Vec<f64> {
    repeat(count, || {
        random.unit() * 2f64.powi(random.from_to(-1022, 1023) as i32)
    })
}

fn subnormal(random: &mut Random, count: usize, _: u32) -> Vec<f64> {
    repeat(count, || {
        let bits = random.bits() >> random.from_to(12, 63);
        random.sign() * f64::from_bits(bits)
    })
}

/// Sums of these often overflow.
fn huge(random: &mut Random, count: usize, _: u32) -> Vec<f64> {
    repeat(count, || random.unit() * f64::MAX)
}

fn raw(random: &mut Random, count: usize, _: u32) -> Vec<f64> {
    repeat(count, || f64::from_bits(random.bits()))
}

/// Numbers and their negatives, shuffled: the sum is 0 or, now and then, only nearly so.
fn cancelling(random: &mut Random, count: usize, fraction_bits: u32) -> Vec<f64> {
    let step = unit(fraction_bits);
    let mut taps = Vec::with_capacity(count + 1);
    while taps.len() < count / 2 * 2 {
        let value = whole(random) * step * random.pick(&[1.0, 0.5]);
        taps.extend([value, -value]);
    }
    taps.resize(count, 0.0);
    for i in (1..count).rev() {
        taps.swap(i, random.below(i + 1));
    }
    if count > 0 && random.one_in(4) {
        taps[random.below(count)] += step;
    }
    taps
}

fn zeros(random: &mut Random, count: usize, _: u32) -> Vec<f64> {
    let list = random.pick(&[[0.0, 0.0], [-0.0, -0.0], [0.0, -0.0]]);
    repeat(count, || random.pick(&list))
}

/// A small sum after something large has come and gone: large or infinite quotients.
fn lost(random: &mut Random, count: usize, _: u32) -> Vec<f64> {
    let small = 2f64.powi(random.from_to(-900, -300) as i32);
    let spread = random.pick(&[1.0, 1.0, 1048576.0, 2f64.powi(80)]);
    let mut taps = repeat(count, || random.unit() * small);
    for _ in 0..random.below(3) + 1 {
        if count < 2 {
            break;
        }
        let place = random.below(count - 1);
        let power = random.from_to(100, 600) as i32;
        let large = random.sign() * 2f64.powi(power);
        taps[place] = large;
        taps[place + 1] = -large;
        taps[random.below(place + 1)] *= spread;
    }
    taps
}

/// One large tap, beside which the quotients of the others are near 0 or round to it.
fn drowned(random: &mut Random, count: usize, fraction_bits: u32) -> Vec<f64> {
    let mut taps = if random.one_in(2) {
        subnormal(random, count, fraction_bits)
    } else {
        even(random, count, fraction_bits)
    };
    if count > 0 {
        let power = random.from_to(0, 1023) as i32;
        taps[random.below(count)] = random.sign() * 2f64.powi(power);
    }
    taps
}

/// Now and then, taps that are not finite, or at the bounds and past them, at random places.
fn spoil(random: &mut Random, taps: &mut [f64], fraction_bits: u32) {
    let edge = 2147483648.0 * unit(fraction_bits);
    let outside = [edge, -edge, -1.5 * edge, 2.0 * edge, 1e300, -1e300];
    let nan = f64::from_bits(0x7ff0_0000_0000_0000 | random.bits());
    let not_finite = [nan, f64::INFINITY, -f64::INFINITY, f64::NAN];
    for list in [&outside[..], &not_finite[..]] {
        if !taps.is_empty() && random.one_in(8) {
            for _ in 0..random.below(3) + 1 {
                taps[random.below(taps.len())] = random.pick(list);
            }
        }
    }
}

fn length(random: &mut Random) -> usize {
    match random.below(16) {
        0 => random.pick(&[0, 0, 1, 256]),
        1 => 257 + random.below(4),
        2..=7 => random.below(12),
        _ => random.below(257),
    }
}

fn table(random: &mut Random, count: usize) -> usize {
    match random.below(16) {
        0 => random.below(count + 1),
        1 => count.saturating_sub(1),
        2..=5 => count + random.below(20),
        _ => count,
    }
}

pub fn set(random: &mut Random) -> Set {
    let count = length(random);
    let fraction_bits = if random.one_in(12) {
        random.pick(&FRACTION_BITS_PAST)
    } else {
        random.below(32) as u32
    };
    let mut taps = random.pick(&KINDS)(random, count, fraction_bits);
    spoil(random, &mut taps, fraction_bits);
    let some_bit = 1 << random.below(32);
    Set {
        fraction_bits,
        normalised: random.pick(&[0, 0, 0, 1, 1, some_bit, u32::MAX]),
        table: table(random, count),
        taps,
    }
}
