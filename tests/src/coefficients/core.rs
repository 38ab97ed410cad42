//! The core's C entries for reduction and trimming, as `fir.h` declares them.

use super::Reduced;
use crate::answer::Answer;
use std::ops::Range;

extern "C" {
    fn fir_reduce(n: i32, negative: *mut u32, odd_part: *mut u32, shift: *mut u32) -> u64;
    fn fir_trimmed(
        coefficients: *const i32,
        coefficient_count: usize,
        start: *mut usize,
        end: *mut usize,
    ) -> u64;
}

pub fn reduce(n: i32, reduced: &mut Reduced) -> Answer {
    let Reduced {
        negative,
        odd_part,
        shift,
    } = reduced;
    // SAFETY: references are never null, and the fields do not overlap.
    unsafe { fir_reduce(n, negative, odd_part, shift) }.into()
}

pub fn trimmed(coefficients: &[i32], stretch: &mut Range<usize>) -> Answer {
    // SAFETY: slices and references are never null, and the mutable ones overlap nothing.
    unsafe {
        fir_trimmed(
            coefficients.as_ptr(),
            coefficients.len(),
            &mut stretch.start,
            &mut stretch.end,
        )
    }
    .into()
}
