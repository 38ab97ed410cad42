//! The search for one new row among the existing ones, as the paper states it: lowest left, then
//! lowest shift, then sign in the order `+`, `-`, `r`. Slow on purpose.

use super::call::Row;
use crate::network::{MINUS, PLUS, REVERSED};
use std::collections::HashMap;

/// The first row of this value that can be made from two of these rows.
pub type Search = fn(&[Row], u32) -> Option<Row>;

/// The number of the lowest row with this value.
pub fn row_with(rows: &[Row], value: u32) -> Option<usize> {
    rows.iter().position(|row| row[4] == value)
}

fn worked_out(lifted: i128, sign: u32, right: i128) -> i128 {
    match sign {
        PLUS => lifted + right,
        MINUS => lifted - right,
        _ => right - lifted,
    }
}

/// All lefts, shifts and signs in order. The right row is what `right` gives for the left row's
/// shifted value and the sign.
fn first_fit(rows: &[Row], value: u32, right: impl Fn(i128, u32) -> Option<usize>) -> Option<Row> {
    for (left, row) in rows.iter().enumerate() {
        for shift in 1..=31 {
            let lifted = 2i128.pow(shift) * row[4] as i128;
            if lifted > 1 << 32 {
                continue;
            }
            for sign in [PLUS, MINUS, REVERSED] {
                if let Some(right) = right(lifted, sign) {
                    return Some([left as u32, right as u32, shift, sign, value]);
                }
            }
        }
    }
    None
}

/// Every right row is tried.
pub fn over_all_rows(rows: &[Row], value: u32) -> Option<Row> {
    let values: Vec<i128> = rows.iter().map(|row| row[4] as i128).collect();
    let wanted = value as i128;
    let fits = |lifted, sign, right: &i128| worked_out(lifted, sign, *right) == wanted;
    let right = |lifted, sign| values.iter().position(|right| fits(lifted, sign, right));
    first_fit(rows, value, right)
}

/// The right row is looked up by its value, for networks of many rows.
pub fn by_value(rows: &[Row], value: u32) -> Option<Row> {
    let mut numbers = HashMap::new();
    for (number, row) in rows.iter().enumerate() {
        numbers.entry(row[4] as i128).or_insert(number);
    }
    let wanted = value as i128;
    let right = |lifted: i128, sign: u32| {
        let value = match sign {
            PLUS => wanted - lifted,
            MINUS => lifted - wanted,
            _ => lifted + wanted,
        };
        numbers.get(&value).copied()
    };
    first_fit(rows, value, right)
}
