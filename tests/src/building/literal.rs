//! Building as the paper states it, step by step, with all minimal forms of every odd part listed.
//! Slow on purpose.

use super::call::{Built, Call, Row, TapRow};
use super::search::{row_with, Search};
use crate::answer::{applying, when, Answer};
use crate::coefficients::literal::reduce;
use crate::coefficients::Reduced;
use crate::forms::literal::{minimal_strings, weight, Digits};
use crate::network::{MINUS, NONE, PLUS, ROW_TABLE, TAP_TABLE};
use std::collections::HashMap;

const FIRST: Row = [0, 0, 0, PLUS, 1];

/// Zero has no odd part.
fn reduced(coefficient: i32) -> Option<Reduced> {
    (coefficient != 0).then(|| reduce(coefficient))
}

/// The listing of each odd part.
pub type Listings = HashMap<u32, Vec<Digits>>;

pub fn listings(call: &Call) -> Listings {
    let mut listings = Listings::new();
    for part in call.coefficients.iter().filter_map(|n| reduced(*n)) {
        let listing = || minimal_strings(part.odd_part as i32);
        listings.entry(part.odd_part).or_insert_with(listing);
    }
    listings
}

/// The number of forms that a tap's choice must be below.
fn form_count(listings: &Listings, coefficient: i32) -> usize {
    reduced(coefficient).map_or(1, |part| listings[&part.odd_part].len())
}

/// Every refusal that applies, down the table, each with its lowest place. The first is returned.
pub fn refusals(call: &Call, listings: &Listings) -> Vec<Answer> {
    let taps = call.coefficients.iter().zip(&call.choices);
    let past = |(n, choice): (&i32, &u32)| *choice as usize >= form_count(listings, *n);
    let (m, choices) = (call.coefficients.len(), call.choices.len());
    let short = choices < m || call.row_table < ROW_TABLE || call.tap_table < TAP_TABLE;
    applying([
        (1, when(m == 0)),
        (2, when(m > 256)),
        (3, when(short)),
        (9, taps.into_iter().position(past)),
    ])
}

/// The distinct odd parts by least weight, then by smaller value, each with the form that its
/// earliest tap chooses.
fn parts(call: &Call, listings: &Listings) -> Vec<(u32, Digits)> {
    let mut parts: Vec<(u32, Digits)> = Vec::new();
    for (n, choice) in call.coefficients.iter().zip(&call.choices) {
        let Some(Reduced { odd_part, .. }) = reduced(*n) else {
            continue;
        };
        if parts.iter().all(|(value, _)| *value != odd_part) {
            parts.push((odd_part, listings[&odd_part][*choice as usize]));
        }
    }
    parts.sort_by_key(|(value, form)| (weight(form), *value));
    parts
}

/// The form from its highest nonzero digit down: v = 2^gap·v ± 1, and each v without a row gets one.
fn add_chain(rows: &mut Vec<Row>, form: &Digits) {
    let places = (0..32).rev().filter(|place| form[*place] != 0);
    let places: Vec<usize> = places.collect();
    assert_eq!(form[places[0]], 1);
    let mut value = 1;
    for pair in places.windows(2) {
        let gap = pair[0] - pair[1];
        let next = 2i128.pow(gap as u32) * value as i128 + form[pair[1]] as i128;
        let next = u32::try_from(next).unwrap();
        if row_with(rows, next).is_none() {
            let left = row_with(rows, value).unwrap() as u32;
            let sign = if form[pair[1]] == 1 { PLUS } else { MINUS };
            rows.push([left, 0, gap as u32, sign, next]);
        }
        value = next;
    }
}

/// How an odd part got its row.
#[derive(Clone, Copy, Debug, PartialEq, Eq)]
pub enum Step {
    Existing,
    /// With this sign.
    Searched(u32),
    /// With so many rows of its chain there before.
    Chain(usize),
}

/// One odd part, by the steps of the paper.
fn add_part(rows: &mut Vec<Row>, value: u32, form: &Digits, search: Search) -> Step {
    if row_with(rows, value).is_some() {
        return Step::Existing;
    }
    if let Some(row) = search(rows, value) {
        rows.push(row);
        return Step::Searched(row[3]);
    }
    let before = rows.len();
    add_chain(rows, form);
    Step::Chain(weight(form) as usize - 1 - (rows.len() - before))
}

fn tap_row(rows: &[Row], coefficient: i32) -> TapRow {
    let Some(part) = reduced(coefficient) else {
        return [NONE, 0, 0];
    };
    let row = row_with(rows, part.odd_part).unwrap() as u32;
    let sign = [PLUS, MINUS][part.negative as usize];
    [sign, row, part.shift]
}

/// The network, with how each odd part got its row, or the refusal.
pub fn built(
    call: &Call,
    listings: &Listings,
    search: Search,
) -> Result<(Built, Vec<Step>), Answer> {
    if let Some(refusal) = refusals(call, listings).first() {
        return Err(*refusal);
    }
    let mut rows = vec![FIRST];
    let parts = parts(call, listings);
    let add = |(value, form): &(u32, Digits)| add_part(&mut rows, *value, form, search);
    let steps = parts.iter().map(add).collect();
    let taps = call.coefficients.iter().map(|n| tap_row(&rows, *n));
    let taps = taps.collect();
    Ok((Built { rows, taps }, steps))
}
