//! Random networks that keep the rules: rows of every kind and size, taps at both ends of the range.

use super::{Network, MINUS, MOST_ROWS, MOST_TAPS, NONE, PLUS, REVERSED, ROW_TABLE, TAP_TABLE};
use crate::random::Random;

type Row = [u32; 5];
type TapRow = [u32; 3];

const FIRST: Row = [0, 0, 0, PLUS, 1];
const SIGNS: [u32; 3] = [PLUS, MINUS, REVERSED];

/// The row with these fields, where its value is within the bounds.
fn worked_out(rows: &[Row], left: usize, right: usize, shift: u32, sign: u32) -> Option<Row> {
    let lifted = (rows[left][4] as i64) << shift;
    let right_value = rows[right][4] as i64;
    let value = match sign {
        PLUS => lifted + right_value,
        MINUS => lifted - right_value,
        _ => right_value - lifted,
    };
    let row = [left as u32, right as u32, shift, sign, value as u32];
    (1..1 << 31).contains(&value).then_some(row)
}

/// The number of a row: any, one of the last, or the first.
fn some_row(random: &mut Random, rows: &[Row]) -> usize {
    match random.below(4) {
        0 => 0,
        1 => rows.len() - 1 - random.below(rows.len().min(4)),
        _ => random.below(rows.len()),
    }
}

fn any(random: &mut Random, rows: &[Row]) -> Option<Row> {
    let (left, right) = (some_row(random, rows), some_row(random, rows));
    let shift = 1 + random.below(31) as u32;
    worked_out(rows, left, right, shift, random.pick(&SIGNS))
}

/// The left row shifted to between 2^30 and 2^32.
fn large(random: &mut Random, rows: &[Row]) -> Option<Row> {
    let (left, right) = (some_row(random, rows), some_row(random, rows));
    let most = rows[left][4].leading_zeros();
    let shift = most.saturating_sub(random.below(2) as u32).clamp(1, 31);
    worked_out(rows, left, right, shift, random.pick(&SIGNS))
}

fn power(random: &mut Random, rows: &[Row]) -> Option<Row> {
    let shift = random.pick(&[1, 2, 29, 30, 31, 31]);
    worked_out(rows, 0, 0, shift, random.pick(&SIGNS))
}

/// An earlier row once more, so that two rows have one value.
fn again(random: &mut Random, rows: &[Row]) -> Option<Row> {
    (rows.len() > 1).then(|| rows[1 + random.below(rows.len() - 1)])
}

type Kind = fn(&mut Random, &[Row]) -> Option<Row>;
const KINDS: [Kind; 6] = [any, any, any, large, power, again];

/// So many rows, each tried until it keeps the rule.
pub fn rows(random: &mut Random, count: usize) -> Vec<Row> {
    let mut rows = vec![FIRST];
    while rows.len() < count {
        rows.extend(random.pick(&KINDS)(random, &rows));
    }
    rows
}

/// The sign and shift that make the coefficient of the row as large as can be, or -2^31.
fn end_of_range(random: &mut Random, rows: &[Row]) -> TapRow {
    if random.one_in(3) {
        return [MINUS, 0, 31];
    }
    let row = random.below(rows.len());
    let most = rows[row][4].leading_zeros() - 1;
    [random.pick(&[PLUS, MINUS]), row as u32, most]
}

/// The largest row, so often 2^31 - 1.
fn largest_row(random: &mut Random, rows: &[Row]) -> TapRow {
    let row = (0..rows.len()).max_by_key(|i| rows[*i][4]).unwrap();
    [random.pick(&[PLUS, MINUS]), row as u32, 0]
}

fn tap_row(random: &mut Random, rows: &[Row]) -> TapRow {
    match random.below(8) {
        0 => [NONE, 0, 0],
        1 => end_of_range(random, rows),
        2 => largest_row(random, rows),
        _ => {
            let row = some_row(random, rows);
            let most = rows[row][4].leading_zeros() as usize;
            let shift = random.below(most) as u32;
            [random.pick(&[PLUS, MINUS]), row as u32, shift]
        }
    }
}

/// So many tap rows over these rows; now and then all empty, or all -2^31.
pub fn tap_rows(random: &mut Random, rows: &[Row], count: usize) -> Vec<TapRow> {
    match random.below(24) {
        0 => vec![[NONE, 0, 0]; count],
        1 => vec![[MINUS, 0, 31]; count],
        _ => (0..count).map(|_| tap_row(random, rows)).collect(),
    }
}

fn row_count(random: &mut Random) -> usize {
    match random.below(16) {
        0 => 1,
        1 => 2,
        2 => MOST_ROWS,
        3 => 1 + random.below(MOST_ROWS),
        4..=8 => 1 + random.below(300),
        _ => 1 + random.below(40),
    }
}

fn tap_count(random: &mut Random) -> usize {
    match random.below(8) {
        0 => random.pick(&[1, 2, 255, 256]),
        1..=4 => 1 + random.below(20),
        _ => 1 + random.below(MOST_TAPS),
    }
}

/// Lengthens a table to its length, and now and then past it, with anything.
fn fill(random: &mut Random, table: &mut Vec<u32>, length: usize) {
    let length = length + random.pick(&[0, 0, 0, 1, 2, 7, 300]);
    while table.len() < length {
        table.push(random.bits() as u32);
    }
}

/// A network with these counts, and anything in its tables past them.
pub fn network_of(random: &mut Random, row_count: usize, tap_count: usize) -> Network {
    let rows = rows(random, row_count);
    let taps = tap_rows(random, &rows, tap_count);
    let mut network = Network {
        rows: rows.concat(),
        row_count,
        taps: taps.concat(),
        tap_count,
    };
    fill(random, &mut network.rows, ROW_TABLE);
    fill(random, &mut network.taps, TAP_TABLE);
    network
}

pub fn network(random: &mut Random) -> Network {
    let (row_count, tap_count) = (row_count(random), tap_count(random));
    network_of(random, row_count, tap_count)
}
