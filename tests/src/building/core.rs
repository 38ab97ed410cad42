//! The core's C entry for building, as `fir.h` declares it.

use crate::answer::Answer;

extern "C" {
    fn fir_build(
        coefficients: *const i32,
        coefficient_count: usize,
        choices: *const u32,
        choice_count: usize,
        rows: *mut u32,
        rows_length: usize,
        taps: *mut u32,
        taps_length: usize,
        row_count: *mut usize,
    ) -> u64;
}

#[inline]
pub fn build(
    coefficients: &[i32],
    choices: &[u32],
    rows: &mut [u32],
    taps: &mut [u32],
    row_count: &mut usize,
) -> Answer {
    // SAFETY: slices and references are never null, and the mutable ones overlap nothing.
    unsafe {
        fir_build(
            coefficients.as_ptr(),
            coefficients.len(),
            choices.as_ptr(),
            choices.len(),
            rows.as_mut_ptr(),
            rows.len(),
            taps.as_mut_ptr(),
            taps.len(),
            row_count,
        )
    }
    .into()
}
