//! The rules for networks as the paper states them, in whole numbers that are wide enough. Slow on
//! purpose.

use super::{Network, MINUS, NONE, PLUS, REVERSED, ROW_TABLE, ROW_WORDS, TAP_TABLE, TAP_WORDS};
use crate::answer::{applying, when, Answer};

struct Row {
    left: u32,
    right: u32,
    shift: u32,
    sign: u32,
    value: u32,
}

struct TapRow {
    sign: u32,
    row: u32,
    shift: u32,
}

/// The rows in use, as far as the table goes.
fn rows(network: &Network) -> Vec<Row> {
    let row = |words: &[u32]| Row {
        left: words[0],
        right: words[1],
        shift: words[2],
        sign: words[3],
        value: words[4],
    };
    let table = network.rows.chunks_exact(ROW_WORDS);
    table.take(network.row_count).map(row).collect()
}

/// The tap rows in use, as far as the table goes.
fn tap_rows(network: &Network) -> Vec<TapRow> {
    let tap_row = |words: &[u32]| TapRow {
        sign: words[0],
        row: words[1],
        shift: words[2],
    };
    let table = network.taps.chunks_exact(TAP_WORDS);
    table.take(network.tap_count).map(tap_row).collect()
}

fn is_first(row: &Row) -> bool {
    row.left == 0 && row.right == 0 && row.shift == 0 && row.sign == PLUS && row.value == 1
}

fn keeps_row_rule(rows: &[Row], i: usize) -> bool {
    let row = &rows[i];
    if i == 0 {
        return is_first(row);
    }
    let earlier = |number: u32| rows[..i].get(number as usize);
    let (Some(left), Some(right)) = (earlier(row.left), earlier(row.right)) else {
        return false;
    };
    if !(1..=31).contains(&row.shift) {
        return false;
    }
    let lifted = 2i128.pow(row.shift) * left.value as i128;
    let right = right.value as i128;
    let worked_out = match row.sign {
        PLUS => lifted + right,
        MINUS => lifted - right,
        REVERSED => right - lifted,
        _ => return false,
    };
    let value = row.value as i128;
    let fits = value % 2 == 1 && (1..=(1 << 31) - 1).contains(&value);
    value == worked_out && fits && lifted <= 1 << 32
}

/// The coefficient of a tap row that keeps the tap row rule.
fn product(rows: &[Row], tap: &TapRow) -> Option<i32> {
    if tap.sign == NONE {
        return (tap.row == 0 && tap.shift == 0).then_some(0);
    }
    let row = rows.get(tap.row as usize)?;
    if tap.shift > 31 {
        return None;
    }
    let lifted = 2i128.pow(tap.shift) * row.value as i128;
    let product = match tap.sign {
        PLUS => lifted,
        MINUS => -lifted,
        _ => return None,
    };
    i32::try_from(product).ok()
}

/// The lowest row that breaks the row rule; place 0 for a row count out of bounds.
fn broken_row(network: &Network, rows: &[Row]) -> Option<usize> {
    if !(1..=4096).contains(&network.row_count) {
        return Some(0);
    }
    (0..rows.len()).find(|i| !keeps_row_rule(rows, *i))
}

/// Every refusal that applies, down the table, each with its lowest place; `short` says that another
/// lent table is under its length. The first is returned.
pub fn refusals(network: &Network, short: bool) -> Vec<Answer> {
    let (rows, taps) = (rows(network), tap_rows(network));
    let broken_tap = || taps.iter().position(|tap| product(&rows, tap).is_none());
    let short = short || network.rows.len() < ROW_TABLE || network.taps.len() < TAP_TABLE;
    applying([
        (1, when(network.tap_count == 0)),
        (2, when(network.tap_count > 256)),
        (3, when(short)),
        (10, broken_row(network, &rows)),
        (11, broken_tap()),
    ])
}

/// The coefficients, one per tap, or the refusal.
pub fn coefficients(network: &Network, short: bool) -> Result<Vec<i32>, Answer> {
    if let Some(refusal) = refusals(network, short).first() {
        return Err(*refusal);
    }
    let rows = rows(network);
    let taps = tap_rows(network);
    Ok(taps
        .iter()
        .map(|tap| product(&rows, tap).unwrap())
        .collect())
}
