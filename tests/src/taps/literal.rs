//! The rules for taps as the paper states them, a half going to the even number, in whole numbers
//! throughout; only the sum and the quotients are left to the machine's binary64 addition and
//! division. Slow on purpose.

use super::binary64::{is_finite, put_together, take_apart, Parts, SIGN};
use crate::answer::{Answer, TapAnswer, ACCEPTED};

/// One tap, rounded. The leftover is given by its bits.
#[derive(Clone, Copy, Debug, PartialEq, Eq)]
pub enum Tap {
    Exact(i32),
    Rounded(i32, u64),
    Refused(u32),
}

/// The whole number nearest to mantissa × 2^exponent, of two that are as near the even one, and what
/// is left of the mantissa when it is taken away. None where that number is far above 2^31.
fn nearest(mantissa: u64, exponent: i64) -> Option<(u64, i64)> {
    if mantissa == 0 {
        Some((0, 0))
    } else if exponent >= 0 {
        let small = exponent <= 31 && mantissa < 1 << 32;
        small.then(|| (mantissa << exponent, 0))
    } else if exponent < -54 {
        // Below 2^53 / 2^55, a quarter.
        Some((0, mantissa as i64))
    } else {
        let one = 1u64 << -exponent;
        let (whole, rest) = (mantissa / one, mantissa % one);
        let odd = whole % 2 == 1;
        let up = 2 * rest > one || 2 * rest == one && odd;
        let whole = whole + up as u64;
        Some((whole, mantissa as i64 - (whole * one) as i64))
    }
}

/// N and the leftover's bits for a finite tap. None where N is outside the bounds.
fn rounded(tap: Parts, fraction_bits: u32) -> Option<(i32, u64)> {
    let exponent = tap.exponent + fraction_bits as i64;
    let (whole, left) = nearest(tap.mantissa, exponent)?;
    let bound = if tap.negative { 1 << 31 } else { (1 << 31) - 1 };
    if whole > bound {
        return None;
    }
    let number = if tap.negative {
        -(whole as i64)
    } else {
        whole as i64
    };
    if left == 0 {
        return Some((number as i32, 0));
    }
    let leftover = put_together(Parts {
        negative: tap.negative != (left < 0),
        mantissa: left.unsigned_abs(),
        exponent,
    });
    Some((number as i32, leftover))
}

/// One tap given by its bits, with the leftover.
pub fn tap(bits: u64, fraction_bits: u32) -> Tap {
    if fraction_bits > 31 {
        return Tap::Refused(4);
    }
    let Some(parts) = take_apart(bits) else {
        return Tap::Refused(5);
    };
    match rounded(parts, fraction_bits) {
        None => Tap::Refused(6),
        Some((number, 0)) => Tap::Exact(number),
        Some((number, leftover)) => Tap::Rounded(number, leftover),
    }
}

pub fn round_tap(bits: u64, fraction_bits: u32) -> TapAnswer {
    match tap(bits, fraction_bits) {
        Tap::Refused(refusal) => TapAnswer::refused(refusal),
        Tap::Exact(number) | Tap::Rounded(number, _) => TapAnswer::accepted(number),
    }
}

/// The sum of the taps, in order from +0, or 1 where nothing is normalised.
fn divisor_of(taps: &[f64], normalised: bool) -> f64 {
    let mut sum = 0.0;
    for tap in taps {
        sum += tap;
    }
    if normalised {
        sum
    } else {
        1.0
    }
}

/// The quotients, or the taps themselves where nothing is normalised.
fn standing(taps: &[f64], normalised: bool, divisor: f64) -> Vec<f64> {
    let stands = |tap: &f64| if normalised { tap / divisor } else { *tap };
    taps.iter().map(stands).collect()
}

fn divisor_refused(divisor: f64) -> bool {
    divisor == 0.0 || !is_finite(divisor)
}

/// Whether N is outside the bounds; where there is no N, 5 or 7 speaks first.
fn outside(value: f64, fraction_bits: u32) -> bool {
    match take_apart(value.to_bits()) {
        Some(parts) => rounded(parts, fraction_bits).is_none(),
        None => false,
    }
}

fn first(list: &[f64], breaks: impl Fn(f64) -> bool) -> Option<u32> {
    list.iter().position(|x| breaks(*x)).map(|i| i as u32)
}

/// Every refusal that applies, down the table, each with its lowest place. The first is returned.
pub fn refusals(taps: &[f64], fraction_bits: u32, normalised: u32, table: usize) -> Vec<Answer> {
    let normalised = normalised != 0;
    let divisor = divisor_of(taps, normalised);
    let values = standing(taps, normalised, divisor);
    let when = |applies: bool| applies.then_some(0);
    let quotient = || first(&values, |q| q.is_infinite()).filter(|_| normalised);
    let table = [
        (1, when(taps.is_empty())),
        (2, when(taps.len() > 256)),
        (3, when(table < taps.len())),
        (4, when(fraction_bits > 31)),
        (5, first(taps, |tap| !is_finite(tap))),
        (7, when(divisor_refused(divisor)).or_else(quotient)),
        (6, first(&values, |value| outside(value, fraction_bits))),
    ];
    table
        .into_iter()
        .filter_map(|(refusal, place)| place.map(|place| Answer { refusal, place }))
        .collect()
}

pub fn round_taps(
    taps: &[f64],
    fraction_bits: u32,
    normalised: u32,
    coefficients: &mut [i32],
    divisor: &mut f64,
    leftover: &mut f64,
) -> Answer {
    let refusals = refusals(taps, fraction_bits, normalised, coefficients.len());
    if let Some(refusal) = refusals.first() {
        return *refusal;
    }
    let normalised = normalised != 0;
    let by = divisor_of(taps, normalised);
    let mut largest = 0;
    for (i, value) in standing(taps, normalised, by).into_iter().enumerate() {
        match tap(value.to_bits(), fraction_bits) {
            Tap::Exact(number) => coefficients[i] = number,
            Tap::Rounded(number, left) => {
                coefficients[i] = number;
                // Without the sign, the bits of greater magnitudes are greater.
                if left & !SIGN > largest & !SIGN {
                    largest = left;
                }
            }
            Tap::Refused(_) => unreachable!(),
        }
    }
    *divisor = by;
    *leftover = f64::from_bits(largest);
    ACCEPTED
}
