//! The weight of a form written by hand for speed, in two ways: the core's time is compared with both.

use super::Form;
use crate::answer::Answer;

/// A version of the entry for C: both masks, where the weight goes, and the word that is answered.
pub type Weigher = unsafe extern "C" fn(u32, u32, &mut u32) -> u64;

#[inline(always)]
pub fn weigh(weigher: Weigher, form: Form, weight: &mut u32) -> Answer {
    // SAFETY: any masks may be handed over, and a reference is never null.
    unsafe { weigher(form.plus, form.minus, weight) }.into()
}

/// Entry b is the number of ones in b.
static BYTE_ONES: [u8; 256] = {
    let mut table = [0; 256];
    let mut b = 0;
    while b < 256 {
        table[b] = b.count_ones() as u8;
        b += 1;
    }
    table
};

#[inline(always)]
fn weighed(plus: u32, minus: u32, weight: &mut u32, ones: impl Fn(u32) -> u32) -> u64 {
    let both = plus & minus;
    if both != 0 {
        return 8 << 32 | u64::from(both.trailing_zeros());
    }
    *weight = ones(plus | minus);
    0
}

/// By a table of bytes.
pub extern "C" fn by_table(plus: u32, minus: u32, weight: &mut u32) -> u64 {
    let looked_up = |byte: u8| BYTE_ONES[byte as usize] as u32;
    weighed(plus, minus, weight, |x| {
        x.to_le_bytes().map(looked_up).iter().sum()
    })
}

/// By Rust's count of ones.
pub extern "C" fn by_count_ones(plus: u32, minus: u32, weight: &mut u32) -> u64 {
    weighed(plus, minus, weight, u32::count_ones)
}
