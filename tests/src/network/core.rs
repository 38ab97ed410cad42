//! The core's C entries for networks, as `fir.h` declares them.

use super::Network;
use crate::answer::Answer;

extern "C" {
    fn fir_check(
        rows: *const u32,
        rows_length: usize,
        row_count: usize,
        taps: *const u32,
        taps_length: usize,
        tap_count: usize,
    ) -> u64;

    fn fir_coefficients(
        rows: *const u32,
        rows_length: usize,
        row_count: usize,
        taps: *const u32,
        taps_length: usize,
        tap_count: usize,
        coefficients: *mut i32,
        coefficient_count: usize,
    ) -> u64;
}

#[inline]
pub fn check(network: &Network) -> Answer {
    // SAFETY: slices are never null.
    unsafe {
        fir_check(
            network.rows.as_ptr(),
            network.rows.len(),
            network.row_count,
            network.taps.as_ptr(),
            network.taps.len(),
            network.tap_count,
        )
    }
    .into()
}

#[inline]
pub fn coefficients(network: &Network, coefficients: &mut [i32]) -> Answer {
    // SAFETY: slices are never null, and the mutable one overlaps nothing.
    unsafe {
        fir_coefficients(
            network.rows.as_ptr(),
            network.rows.len(),
            network.row_count,
            network.taps.as_ptr(),
            network.taps.len(),
            network.tap_count,
            coefficients.as_mut_ptr(),
            coefficients.len(),
        )
    }
    .into()
}
