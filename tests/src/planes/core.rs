//! The core's C entries for planes, as `fir.h` declares them.

use super::Grid;
use crate::answer::Answer;

extern "C" {
    fn fir_write_planes(
        height: usize,
        width: usize,
        coefficients: *const i32,
        coefficient_count: usize,
        choices: *const u32,
        choice_count: usize,
        plus: *mut u64,
        plus_count: usize,
        minus: *mut u64,
        minus_count: usize,
    ) -> u64;

    fn fir_read_planes(
        height: usize,
        width: usize,
        plus: *const u64,
        plus_count: usize,
        minus: *const u64,
        minus_count: usize,
        cell_plus: *mut u32,
        cell_plus_count: usize,
        cell_minus: *mut u32,
        cell_minus_count: usize,
    ) -> u64;
}

#[inline]
pub fn write_planes(
    grid: Grid,
    coefficients: &[i32],
    choices: &[u32],
    plus: &mut [u64],
    minus: &mut [u64],
) -> Answer {
    // SAFETY: slices are never null, and the mutable ones overlap nothing.
    unsafe {
        fir_write_planes(
            grid.height,
            grid.width,
            coefficients.as_ptr(),
            coefficients.len(),
            choices.as_ptr(),
            choices.len(),
            plus.as_mut_ptr(),
            plus.len(),
            minus.as_mut_ptr(),
            minus.len(),
        )
    }
    .into()
}

#[inline]
pub fn read_planes(
    grid: Grid,
    plus: &[u64],
    minus: &[u64],
    cell_plus: &mut [u32],
    cell_minus: &mut [u32],
) -> Answer {
    // SAFETY: slices are never null, and the mutable ones overlap nothing.
    unsafe {
        fir_read_planes(
            grid.height,
            grid.width,
            plus.as_ptr(),
            plus.len(),
            minus.as_ptr(),
            minus.len(),
            cell_plus.as_mut_ptr(),
            cell_plus.len(),
            cell_minus.as_mut_ptr(),
            cell_minus.len(),
        )
    }
    .into()
}
