//! Damage to networks: fields, counts and tables that break the rules, or just do not.

use super::{Network, MINUS, NONE, PLUS, REVERSED, ROW_TABLE, ROW_WORDS, TAP_TABLE, TAP_WORDS};
use crate::random::Random;

/// Sign codes, known and unknown.
const SIGNS: [u32; 12] = [
    NONE,
    PLUS,
    MINUS,
    REVERSED,
    1,
    42,
    44,
    82,
    PLUS + 256,
    MINUS << 24,
    REVERSED | 1 << 31,
    u32::MAX,
];
const SHIFTS: [u32; 10] = [0, 1, 2, 30, 31, 32, 33, 63, 64, u32::MAX];
const VALUES: [u32; 8] = [0, 1, 2, 3, 0x7fff_ffff, 0x8000_0000, 0x8000_0001, u32::MAX];

/// Just beside a word, or a power of two away from it.
fn beside(word: u32) -> Vec<u32> {
    let near = [1, 2, u32::MAX, u32::MAX - 1, 32, 64, 256];
    let far = [1 << 16, 1 << 31];
    let near = near.map(|more: u32| word.wrapping_add(more));
    near.into_iter()
        .chain(far.map(|bit: u32| word ^ bit))
        .collect()
}

/// What may stand in a field that names a row: its neighbours, row i, and the count.
fn row_numbers(word: u32, i: usize, count: usize) -> Vec<u32> {
    let own = [i, i + 1, i.wrapping_sub(1), count, count.wrapping_sub(1)];
    let mut list = own.map(|number| number as u32).to_vec();
    list.extend([0, 1, 4095, 4096, u32::MAX]);
    list.extend(beside(word));
    list
}

/// What to put in the place of a word of row i.
pub fn row_words(network: &Network, i: usize, field: usize) -> Vec<u32> {
    let word = network.rows[ROW_WORDS * i + field];
    match field {
        0 | 1 => row_numbers(word, i, network.row_count),
        2 => [&SHIFTS[..], &beside(word)].concat(),
        3 => [&SIGNS[..], &beside(word)].concat(),
        _ => [&VALUES[..], &beside(word)].concat(),
    }
}

/// What to put in the place of a word of tap row j.
pub fn tap_words(network: &Network, j: usize, field: usize) -> Vec<u32> {
    let word = network.taps[TAP_WORDS * j + field];
    match field {
        0 => [&SIGNS[..], &beside(word)].concat(),
        1 => row_numbers(word, j, network.row_count),
        _ => [&SHIFTS[..], &beside(word)].concat(),
    }
}

/// One of these, the first and the last more often.
fn place(random: &mut Random, count: usize) -> usize {
    let any = random.below(count);
    random.pick(&[0, count - 1, any, any])
}

fn field_of_row(random: &mut Random, network: &mut Network) {
    let i = place(random, network.row_count);
    let field = random.below(ROW_WORDS);
    let word = random.pick(&row_words(network, i, field));
    network.rows[ROW_WORDS * i + field] = word;
}

fn field_of_tap(random: &mut Random, network: &mut Network) {
    let j = place(random, network.tap_count);
    let field = random.below(TAP_WORDS);
    let word = random.pick(&tap_words(network, j, field));
    network.taps[TAP_WORDS * j + field] = word;
}

/// Two rows or two tap rows change places.
fn exchanged(random: &mut Random, network: &mut Network) {
    let rows = random.one_in(2);
    let (count, words, table) = if rows {
        (network.row_count, ROW_WORDS, &mut network.rows)
    } else {
        (network.tap_count, TAP_WORDS, &mut network.taps)
    };
    let (a, b) = (random.below(count), random.below(count));
    for word in 0..words {
        table.swap(words * a + word, words * b + word);
    }
}

/// A tap whose product is 2^31 or -2^31.
fn product_past(random: &mut Random, network: &mut Network) {
    let at = TAP_WORDS * place(random, network.tap_count);
    network.taps[at..at + TAP_WORDS].copy_from_slice(&[random.pick(&[PLUS, MINUS]), 0, 31]);
}

/// A row with the lower 32 bits of the value worked out, which is often negative or past 2^31.
fn value_past(random: &mut Random, network: &mut Network) {
    let i = place(random, network.row_count);
    let shift = 1 + random.below(31) as u32;
    let some = |random: &mut Random| random.below(i.max(1));
    let (left, right) = (some(random), some(random));
    let value = |row: usize| network.rows[ROW_WORDS * row + 4];
    let lifted = value(left) << shift;
    let (sign, value) = random.pick(&[
        (PLUS, lifted.wrapping_add(value(right))),
        (MINUS, lifted.wrapping_sub(value(right))),
        (REVERSED, value(right).wrapping_sub(lifted)),
    ]);
    let row = [left as u32, right as u32, shift, sign, value];
    network.rows[ROW_WORDS * i..ROW_WORDS * i + ROW_WORDS].copy_from_slice(&row);
}

type Damage = fn(&mut Random, &mut Network);
const FIELDS: [Damage; 8] = [
    field_of_row,
    field_of_row,
    field_of_row,
    field_of_tap,
    field_of_tap,
    exchanged,
    product_past,
    value_past,
];

/// Counts at their bounds, past them, and past the tables.
pub const ROW_COUNTS: [usize; 9] = [
    0,
    1,
    4096,
    4097,
    5000,
    1 << 32,
    (1 << 32) + 1,
    1 << 63,
    usize::MAX,
];
pub const TAP_COUNTS: [usize; 9] = [
    0,
    1,
    256,
    257,
    300,
    1 << 32,
    (1 << 32) + 1,
    1 << 63,
    usize::MAX,
];
pub const ROW_TABLES: [usize; 6] = [0, 1, 5, ROW_TABLE - 5, ROW_TABLE - 1, ROW_TABLE];
pub const TAP_TABLES: [usize; 6] = [0, 1, 3, TAP_TABLE - 3, TAP_TABLE - 1, TAP_TABLE];

/// Some fields of a network that keeps the rules.
pub fn fields(random: &mut Random, network: &mut Network) {
    for _ in 0..1 + random.below(3) {
        random.pick(&FIELDS)(random, network);
    }
}

/// Counts and tables. The tables may then be shorter than the counts say.
pub fn counts_and_tables(random: &mut Random, network: &mut Network) {
    let which = 1 + random.below(15);
    if which & 1 != 0 {
        network.row_count = random.pick(&ROW_COUNTS);
    }
    if which & 2 != 0 {
        network.tap_count = random.pick(&TAP_COUNTS);
    }
    if which & 4 != 0 {
        network.rows.truncate(random.pick(&ROW_TABLES));
    }
    if which & 8 != 0 {
        network.taps.truncate(random.pick(&TAP_TABLES));
    }
}
