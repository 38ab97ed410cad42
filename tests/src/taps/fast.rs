//! Both entries for taps written by hand for speed, in plain Rust: the core's time is compared with
//! this.

use crate::answer::{Answer, TapAnswer, ACCEPTED};
use std::mem::MaybeUninit;

/// 2^52 and half of it. A number below 2^51 in size plus this has no digits for a fraction, so the
/// sum is rounded to a whole number, a half to the even one; its low 32 bits are those of that number.
const LIFT: f64 = 6755399441055744.0;

fn power_of_two(fraction_bits: u32) -> f64 {
    f64::from_bits((1023 + fraction_bits as u64) << 52)
}

/// The nearest whole number plus LIFT, where that number is within the bounds.
#[inline(always)]
fn lifted(scaled: f64) -> Option<f64> {
    if scaled >= -2147483648.5 && scaled < 2147483647.5 {
        Some(scaled + LIFT)
    } else {
        None
    }
}

#[inline(always)]
fn low_bits(lifted: f64) -> i32 {
    lifted.to_bits() as i32
}

/// The word that the entry for C answers.
#[inline(never)]
extern "C" fn tap_word(bits: u64, fraction_bits: u32) -> u64 {
    if fraction_bits > 31 {
        return 4 << 32;
    }
    let tap = f64::from_bits(bits);
    match lifted(tap * power_of_two(fraction_bits)) {
        Some(lifted) => low_bits(lifted) as u32 as u64,
        None => (if tap.is_finite() { 6 } else { 5 }) << 32,
    }
}

pub fn round_tap(bits: u64, fraction_bits: u32) -> TapAnswer {
    tap_word(bits, fraction_bits).into()
}

type Buffer = [MaybeUninit<i32>; 256];

/// Rounds all taps, divided where asked, into the buffer; gives the largest leftover, or the first
/// place where there is no coefficient.
#[inline(always)]
fn round_all<const DIVIDE: bool>(
    taps: &[f64],
    divisor: f64,
    power: f64,
    buffer: &mut Buffer,
) -> Result<f64, usize> {
    let mut largest = 0.0f64;
    for (place, (tap, out)) in taps.iter().zip(buffer.iter_mut()).enumerate() {
        let scaled = if DIVIDE { tap / divisor } else { *tap } * power;
        let lifted = lifted(scaled).ok_or(place)?;
        out.write(low_bits(lifted));
        let leftover = scaled - (lifted - LIFT);
        if leftover.abs() > largest.abs() {
            largest = leftover;
        }
    }
    Ok(largest)
}

/// Which refusal it is, once some tap has no coefficient or the divisor is unfit.
#[cold]
fn refusal(taps: &[f64], normalised: bool, divisor: f64, place: usize) -> Answer {
    let refused = |refusal, place: usize| Answer {
        refusal,
        place: place as u32,
    };
    if let Some(place) = taps.iter().position(|tap| !tap.is_finite()) {
        return refused(5, place);
    }
    if divisor == 0.0 || !divisor.is_finite() {
        return refused(7, 0);
    }
    let infinite = |tap: &f64| normalised && (tap / divisor).is_infinite();
    match taps.iter().position(infinite) {
        Some(place) => refused(7, place),
        None => refused(6, place),
    }
}

/// The checks that look at no tap.
#[inline(always)]
fn refused_unseen(taps: usize, table: usize, fraction_bits: u32) -> u32 {
    if taps == 0 {
        1
    } else if taps > 256 {
        2
    } else if table < taps {
        3
    } else if fraction_bits > 31 {
        4
    } else {
        0
    }
}

#[inline(never)]
pub fn round_taps(
    taps: &[f64],
    fraction_bits: u32,
    normalised: u32,
    coefficients: &mut [i32],
    divisor: &mut f64,
    leftover: &mut f64,
) -> Answer {
    let unseen = refused_unseen(taps.len(), coefficients.len(), fraction_bits);
    if unseen != 0 {
        return Answer {
            refusal: unseen,
            place: 0,
        };
    }
    let power = power_of_two(fraction_bits);
    let mut buffer = [MaybeUninit::uninit(); 256];
    let (sum, settled) = if normalised == 0 {
        (1.0, round_all::<false>(taps, 1.0, power, &mut buffer))
    } else {
        let sum = taps.iter().fold(0.0, |sum, tap| sum + tap);
        if sum == 0.0 || !sum.is_finite() {
            return refusal(taps, true, sum, 0);
        }
        (sum, round_all::<true>(taps, sum, power, &mut buffer))
    };
    match settled {
        Err(place) => refusal(taps, normalised != 0, sum, place),
        Ok(largest) => {
            // SAFETY: the first taps.len() elements are filled, and the table has as many.
            unsafe {
                let from = buffer.as_ptr().cast::<i32>();
                std::ptr::copy_nonoverlapping(from, coefficients.as_mut_ptr(), taps.len());
            }
            *divisor = sum;
            *leftover = largest;
            ACCEPTED
        }
    }
}
