//! The core's C entries for forms, as `fir.h` declares them.

use super::weights::Weigher;
use super::Form;
use crate::answer::Answer;

extern "C" {
    fn fir_form_value(plus: u32, minus: u32, value: *mut i64) -> u64;
    fn fir_form_weight(plus: u32, minus: u32, weight: &mut u32) -> u64;
    fn fir_canonical(n: i32, plus: *mut u32, minus: *mut u32) -> u64;
    fn fir_minimal_forms(
        n: i32,
        plus: *mut u32,
        plus_count: usize,
        minus: *mut u32,
        minus_count: usize,
        count: *mut u32,
    ) -> u64;
    fn fir_form_count(n: i32, count: *mut u32) -> u64;
}

pub fn form_value(form: Form, value: &mut i64) -> Answer {
    // SAFETY: a reference is never null.
    unsafe { fir_form_value(form.plus, form.minus, value) }.into()
}

pub const FORM_WEIGHT: Weigher = fir_form_weight;

pub fn canonical(n: i32, form: &mut Form) -> Answer {
    // SAFETY: references are never null, and the two fields do not overlap.
    unsafe { fir_canonical(n, &mut form.plus, &mut form.minus) }.into()
}

#[inline]
pub fn minimal_forms(n: i32, plus: &mut [u32], minus: &mut [u32], count: &mut u32) -> Answer {
    // SAFETY: slices and references are never null, and the mutable ones overlap nothing.
    unsafe {
        fir_minimal_forms(
            n,
            plus.as_mut_ptr(),
            plus.len(),
            minus.as_mut_ptr(),
            minus.len(),
            count,
        )
    }
    .into()
}

#[inline]
pub fn form_count(n: i32, count: &mut u32) -> Answer {
    // SAFETY: a reference is never null.
    unsafe { fir_form_count(n, count) }.into()
}
