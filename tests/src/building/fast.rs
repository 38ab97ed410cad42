//! Building written by hand for speed: the core's time is compared with this.

use super::call::TapRow;
use super::chosen;
use super::index::{Index, Room};
use crate::answer::{Answer, ACCEPTED};
use crate::forms::fast::form_count;
use crate::network::{MINUS, MOST_TAPS, NONE, PLUS, ROW_TABLE, TAP_TABLE};

fn refused(refusal: u32, place: usize) -> Answer {
    Answer {
        refusal,
        place: place as u32,
    }
}

/// The checks that look at no coefficient.
#[inline(always)]
fn refused_unseen(taps: usize, choices: usize, row_table: usize, tap_table: usize) -> u32 {
    if taps == 0 {
        1
    } else if taps > MOST_TAPS {
        2
    } else if choices < taps || row_table < ROW_TABLE || tap_table < TAP_TABLE {
        3
    } else {
        0
    }
}

/// Every coefficient has a first form, and 0 has no other.
#[inline(always)]
fn is_past(coefficient: i32, choice: u32) -> bool {
    if choice == 0 {
        return false;
    }
    let mut count = 0;
    form_count(coefficient, &mut count);
    choice >= count
}

/// The number of nonzero digits of the canonical form.
#[inline(always)]
fn weight(odd_part: u32) -> u32 {
    let n = odd_part as u64;
    (n ^ 3 * n).count_ones()
}

/// For each tap that is not zero its weight, odd part and number, in rising order.
struct Order {
    keys: [u64; MOST_TAPS],
    count: usize,
    /// There will not be more rows.
    most_rows: usize,
}

impl Order {
    #[inline(always)]
    fn new(coefficients: &[i32]) -> Self {
        let mut order = Order {
            keys: [0; MOST_TAPS],
            count: 0,
            most_rows: 1,
        };
        for (tap, coefficient) in coefficients.iter().enumerate() {
            let magnitude = coefficient.unsigned_abs();
            if magnitude != 0 {
                let odd_part = magnitude >> magnitude.trailing_zeros();
                let weight = weight(odd_part);
                let key = (weight as u64) << 40 | (odd_part as u64) << 8 | tap as u64;
                order.keys[order.count] = key;
                order.count += 1;
                order.most_rows += weight as usize - 1;
            }
        }
        order.keys[..order.count].sort_unstable();
        order
    }
}

/// Reads the chosen form from its highest digit down, and gives the last row.
fn add_chain(index: &mut Index, odd_part: u32, choice: u32) -> usize {
    let form = chosen::form(odd_part as i32, choice);
    let mut digits = form.plus | form.minus;
    let mut place = digits.ilog2();
    let (mut value, mut row) = (1, 0);
    loop {
        digits ^= 1 << place;
        if digits == 0 {
            return row;
        }
        let next = digits.ilog2();
        let (gap, plus) = (place - next, form.plus >> next & 1 != 0);
        let lifted = value << gap;
        value = if plus { lifted + 1 } else { lifted - 1 };
        row = index.row_with(value).unwrap_or_else(|| {
            let sign = if plus { PLUS } else { MINUS };
            index.add([row as u32, 0, gap, sign, value]);
            index.count - 1
        });
        place = next;
    }
}

/// The row of an odd part, added where there is none.
#[inline(always)]
fn row_of(index: &mut Index, odd_part: u32, choice: u32) -> usize {
    if let Some(row) = index.row_with(odd_part) {
        return row;
    }
    match index.first_fit(odd_part) {
        Some(row) => {
            index.add(row);
            index.count - 1
        }
        None => add_chain(index, odd_part, choice),
    }
}

fn tap_row(coefficient: i32, row: usize) -> TapRow {
    let sign = if coefficient < 0 { MINUS } else { PLUS };
    [sign, row as u32, coefficient.trailing_zeros()]
}

#[inline(never)]
pub fn build(
    coefficients: &[i32],
    choices: &[u32],
    rows: &mut [u32],
    taps: &mut [u32],
    row_count: &mut usize,
) -> Answer {
    let count = coefficients.len();
    let unseen = refused_unseen(count, choices.len(), rows.len(), taps.len());
    if unseen != 0 {
        return refused(unseen, 0);
    }
    let mut pairs = coefficients.iter().zip(choices);
    if let Some(place) = pairs.position(|(n, choice)| is_past(*n, *choice)) {
        return refused(9, place);
    }
    let taps = &mut taps.as_chunks_mut().0[..count];
    taps.fill([NONE, 0, 0]);
    let order = Order::new(coefficients);
    let mut room = Room::new();
    let rows = rows.as_chunks_mut().0;
    let mut index = Index::new(&mut room, rows, order.most_rows);
    let (mut last, mut row) = (0, 0);
    for key in &order.keys[..order.count] {
        let (odd_part, tap) = ((key >> 8) as u32, (key & 255) as usize);
        if odd_part != last {
            row = row_of(&mut index, odd_part, choices[tap]);
            last = odd_part;
        }
        taps[tap] = tap_row(coefficients[tap], row);
    }
    *row_count = index.count;
    ACCEPTED
}
