//! The rules for planes as the request states them, digit by digit, from listings of digit strings.
//! Slow on purpose.

use super::call::{Reading, Writing};
use super::{Grid, Masks};
use crate::answer::{applying, when, Answer};
use crate::forms::literal::{masks, minimal_strings, Digits};
use std::collections::HashMap;

/// The listing of each coefficient.
pub type Listings = HashMap<i32, Vec<Digits>>;

/// The coefficients and choices of the cells, as far as the tables go.
fn cells(call: &Writing) -> impl Iterator<Item = (i32, u32)> + '_ {
    let coefficients = call.coefficients.iter().copied();
    let both = coefficients.zip(call.choices.iter().copied());
    both.take(call.grid.cells())
}

pub fn listings(call: &Writing) -> Listings {
    let mut listings = Listings::new();
    for (n, _) in cells(call) {
        listings.entry(n).or_insert_with(|| minimal_strings(n));
    }
    listings
}

fn side_past(grid: Grid) -> bool {
    let within = |side: usize| (1..=16).contains(&side);
    !within(grid.height) || !within(grid.width)
}

/// Every refusal of a call that writes, down the table, each with its lowest place. The first is
/// returned.
pub fn writing_refusals(call: &Writing, listings: &Listings) -> Vec<Answer> {
    let cell_count = call.grid.cells();
    let short = call.tables.iter().any(|words| *words < 128)
        || call.coefficients.len() < cell_count
        || call.choices.len() < cell_count;
    let past = |(n, choice): (i32, u32)| choice as usize >= listings[&n].len();
    applying([
        (14, when(side_past(call.grid))),
        (3, when(short)),
        (9, cells(call).position(past)),
    ])
}

/// The word that holds the digit of a cell in a plane, and the worth of its bit there.
fn position(plane: usize, cell: usize) -> (usize, u64) {
    (4 * plane + cell / 64, 2u64.pow((cell % 64) as u32))
}

/// The planes, or the refusal.
pub fn write_planes(call: &Writing, listings: &Listings) -> Result<Masks<u64>, Answer> {
    if let Some(refusal) = writing_refusals(call, listings).first() {
        return Err(*refusal);
    }
    let [mut plus, mut minus] = [vec![0; 128], vec![0; 128]];
    for row in 0..call.grid.height {
        for column in 0..call.grid.width {
            let cell = row * call.grid.width + column;
            let choice = call.choices[cell] as usize;
            let form = listings[&call.coefficients[cell]][choice];
            for (plane, digit) in form.into_iter().enumerate() {
                let (word, worth) = position(plane, cell);
                match digit {
                    1 => plus[word] += worth,
                    -1 => minus[word] += worth,
                    _ => {}
                }
            }
        }
    }
    Ok(Masks { plus, minus })
}

/// Whether a plane has a cell; no where the table does not go so far.
fn holds(table: &[u64], plane: usize, cell: usize) -> bool {
    let (word, worth) = position(plane, cell);
    table.get(word).is_some_and(|bits| bits / worth % 2 == 1)
}

/// The digits of a cell, or none where a plane has it in both tables.
fn digits(planes: &Masks<u64>, cell: usize) -> Option<Digits> {
    let mut digits = [0; 32];
    for (plane, digit) in digits.iter_mut().enumerate() {
        let plus = holds(&planes.plus, plane, cell);
        *digit = match (plus, holds(&planes.minus, plane, cell)) {
            (true, true) => return None,
            (true, false) => 1,
            (false, true) => -1,
            (false, false) => 0,
        };
    }
    Some(digits)
}

/// Every refusal of a call that reads, down the table, each with its lowest place. The first is
/// returned.
pub fn reading_refusals(call: &Reading) -> Vec<Answer> {
    let Masks { plus, minus } = &call.planes;
    let cell_count = call.grid.cells();
    let short = plus.len() < 128
        || minus.len() < 128
        || call.tables.iter().any(|masks| *masks < cell_count);
    let mut cells = 0..cell_count.min(256);
    applying([
        (14, when(side_past(call.grid))),
        (3, when(short)),
        (8, cells.find(|cell| digits(&call.planes, *cell).is_none())),
    ])
}

/// Each cell's masks, or the refusal.
pub fn read_planes(call: &Reading) -> Result<Masks<u32>, Answer> {
    if let Some(refusal) = reading_refusals(call).first() {
        return Err(*refusal);
    }
    let form = |cell: usize| masks(&digits(&call.planes, cell).unwrap());
    let forms: Vec<_> = (0..call.grid.cells()).map(form).collect();
    Ok(Masks {
        plus: forms.iter().map(|form| form.plus).collect(),
        minus: forms.iter().map(|form| form.minus).collect(),
    })
}
