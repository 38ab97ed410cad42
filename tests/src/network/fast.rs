//! Checking a network written by hand for speed: the core's time is compared with this. One branch a
//! row, none on its sign.

use super::{Network, MINUS, MOST_ROWS, MOST_TAPS, NONE, PLUS, REVERSED, ROW_TABLE, TAP_TABLE};
use crate::answer::{Answer, ACCEPTED};

/// The rows before row i keep the rule, so their values are odd and below 2^31. Then a value that is
/// the one worked out is odd, and one below 2^31 bounds the shifted row too.
#[inline(always)]
fn keeps_row_rule(rows: &[[u32; 5]], i: usize) -> bool {
    let [left, right, shift, sign, value] = rows[i];
    let (left, right) = (left as usize, right as usize);
    if left >= i || right >= i {
        return false;
    }
    let lifted = (rows[left][4] as i64) << (shift & 31);
    let right = rows[right][4] as i64;
    let negate = |number: i64, when: bool| (number ^ -(when as i64)) + when as i64;
    let worked_out = negate(lifted, sign == REVERSED) + negate(right, sign == MINUS);
    let known = (sign == PLUS) | (sign == MINUS) | (sign == REVERSED);
    let fits = (value as i32 > 0) & (shift.wrapping_sub(1) < 31);
    known & fits & (worked_out == value as i64)
}

fn broken_row(rows: &[[u32; 5]]) -> Option<usize> {
    if rows[0] != [0, 0, 0, PLUS, 1] {
        return Some(0);
    }
    (1..rows.len()).find(|i| !keeps_row_rule(rows, *i))
}

#[inline(always)]
fn product(rows: &[[u32; 5]], [sign, row, shift]: [u32; 3]) -> Option<i32> {
    if sign == NONE {
        return (row | shift == 0).then_some(0);
    }
    let value = rows.get(row as usize)?[4];
    let lifted = (value as i64) << (shift & 31);
    let product = if sign == MINUS { -lifted } else { lifted };
    let known = (sign == PLUS) | (sign == MINUS);
    (known & (shift < 32) & (product == product as i32 as i64)).then_some(product as i32)
}

/// All checks; `short` says that another lent table is under its length. Where nothing is turned
/// down, the coefficients are at the start of the buffer.
#[inline(always)]
pub fn examine(network: &Network, short: bool, buffer: &mut [i32; MOST_TAPS]) -> Answer {
    let (n, m) = (network.row_count, network.tap_count);
    if m == 0 {
        return Answer::refused(1, 0);
    }
    if m > MOST_TAPS {
        return Answer::refused(2, 0);
    }
    if network.rows.len() < ROW_TABLE || network.taps.len() < TAP_TABLE || short {
        return Answer::refused(3, 0);
    }
    if n == 0 || n > MOST_ROWS {
        return Answer::refused(10, 0);
    }
    let rows = &network.rows.as_chunks::<5>().0[..n];
    if let Some(row) = broken_row(rows) {
        return Answer::refused(10, row);
    }
    let taps = &network.taps.as_chunks::<3>().0[..m];
    for (place, (tap, to)) in taps.iter().zip(buffer).enumerate() {
        match product(rows, *tap) {
            Some(coefficient) => *to = coefficient,
            None => return Answer::refused(11, place),
        }
    }
    ACCEPTED
}

#[inline(never)]
pub fn check(network: &Network) -> Answer {
    examine(network, false, &mut [0; MOST_TAPS])
}

#[inline(never)]
pub fn coefficients(network: &Network, coefficients: &mut [i32]) -> Answer {
    let mut buffer = [0; MOST_TAPS];
    let short = coefficients.len() < network.tap_count;
    let answer = examine(network, short, &mut buffer);
    if answer == ACCEPTED {
        let count = network.tap_count;
        coefficients[..count].copy_from_slice(&buffer[..count]);
    }
    answer
}
