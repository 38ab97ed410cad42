//! The search for one new row, for speed: by right rows instead of left ones.
//!
//! The left row of a fit is the odd part of the sum or the difference of the value and the right
//! row. The filter passes most right rows without their odd parts worked out. All fits that may
//! come first are met, and the first is kept.

use super::call::Row;
use super::index::{cell, mark, Index, BLOCK};
use crate::network::{MINUS, PLUS, REVERSED};
use std::mem::MaybeUninit;

/// Rows whose cells are worked out together.
const STRETCH: usize = 32 * BLOCK;
/// The signs in order.
const SIGNS: [u32; 3] = [PLUS, MINUS, REVERSED];

impl Index<'_> {
    /// The place in order of the fit with this right row, and the right row below it.
    #[inline(always)]
    fn fit(&self, number: u32, sign: u64, right: usize) -> u64 {
        let shift = number.trailing_zeros();
        match self.row_with(number >> shift) {
            None => u64::MAX,
            Some(left) => (left as u64) << 32 | (shift as u64) << 24 | sign << 16 | right as u64,
        }
    }

    /// All marks in these cells.
    #[inline(always)]
    fn marks(&self, cells: &[u32; BLOCK]) -> u8 {
        let mut marks = 0;
        for pair in cells.as_chunks::<2>().0 {
            let four = pair[0] as u64 | (pair[1] as u64) << 32;
            for i in 0..4 {
                marks |= self.mark((four >> (16 * i)) as u16 as usize);
            }
        }
        marks
    }

    /// The first fit among those whose right row is in this block, where it comes before `first`.
    #[inline(never)]
    fn first_of(&self, value: u32, at: usize, cells: &[u32; BLOCK], mut first: u64) -> u64 {
        let mut marks = wanted(first);
        let mut try_fit = |number: u32, cell: u32, sign: u64, right: usize| {
            if self.mark(cell as usize) & marks != 0 {
                let fit = self.fit(number, sign, right);
                if fit < first {
                    (first, marks) = (fit, wanted(fit));
                }
            }
        };
        for i in 0..BLOCK.min(self.count - at) {
            let other = self.value(at + i);
            try_fit(value + other, cells[i] & 0xffff, 1, at + i);
            let sign = if other < value { 0 } else { 2 };
            try_fit(value.abs_diff(other), cells[i] >> 16, sign, at + i);
        }
        first
    }

    /// The first row of this value that can be made from two of the rows, none of which has it.
    #[inline(never)]
    pub fn first_fit(&self, value: u32) -> Option<Row> {
        let (mut first, mut wanted_marks) = (u64::MAX, u8::MAX);
        let mut cells = [MaybeUninit::uninit(); STRETCH];
        for (stretch, values) in self.values().chunks(STRETCH).enumerate() {
            let cells = find_cells(value, values, self.filter_bits, &mut cells);
            for (block, cells) in cells.as_chunks().0.iter().enumerate() {
                if self.marks(cells) & wanted_marks != 0 {
                    let at = STRETCH * stretch + BLOCK * block;
                    first = self.first_of(value, at, cells, first);
                    wanted_marks = wanted(first);
                }
            }
        }
        (first != u64::MAX).then(|| {
            let [left, shift, sign] = [first >> 32, first >> 24 & 31, first >> 16 & 3];
            let sign = SIGNS[sign as usize];
            [
                left as u32,
                first as u32 & 0xffff,
                shift as u32,
                sign,
                value,
            ]
        })
    }
}

/// The marks of rows that may come before the left row of this fit, or are it.
#[inline(always)]
fn wanted(fit: u64) -> u8 {
    mark((fit >> 32) as usize).wrapping_neg()
}

/// For each row the cell of its sum with the value in the lower half, of its difference in the upper.
#[inline(never)]
fn find_cells<'a>(
    value: u32,
    rows: &[u32],
    bits: u32,
    cells: &'a mut [MaybeUninit<u32>; STRETCH],
) -> &'a [u32] {
    let cells = &mut cells[..rows.len()];
    for (other, to) in rows.iter().zip(cells.iter_mut()) {
        let sum = (value + other) >> 1;
        let difference = (value as i32 - *other as i32) >> 1;
        to.write(cell(sum as i32, bits) | cell(difference, bits) << 16);
    }
    // SAFETY: each has been written.
    unsafe { cells.assume_init_ref() }
}
