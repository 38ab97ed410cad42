//! The core's C entries for taps, as `fir.h` declares them.

use crate::answer::{Answer, TapAnswer};

extern "C" {
    fn fir_round_tap(bits: u64, fraction_bits: u32) -> u64;

    fn fir_round_taps(
        taps: *const f64,
        tap_count: usize,
        fraction_bits: u32,
        normalised: u32,
        coefficients: *mut i32,
        coefficient_count: usize,
        divisor: *mut f64,
        leftover: *mut f64,
    ) -> u64;
}

#[inline]
pub fn round_tap(bits: u64, fraction_bits: u32) -> TapAnswer {
    // SAFETY: the entry takes numbers only.
    unsafe { fir_round_tap(bits, fraction_bits) }.into()
}

#[inline]
pub fn round_taps(
    taps: &[f64],
    fraction_bits: u32,
    normalised: u32,
    coefficients: &mut [i32],
    divisor: &mut f64,
    leftover: &mut f64,
) -> Answer {
    // SAFETY: slices and references are never null, and the mutable ones overlap nothing.
    unsafe {
        fir_round_taps(
            taps.as_ptr(),
            taps.len(),
            fraction_bits,
            normalised,
            coefficients.as_mut_ptr(),
            coefficients.len(),
            divisor,
            leftover,
        )
    }
    .into()
}
