//! Random grids, and calls that write and read their planes.

use super::call::{Reading, Writing};
use super::{Grid, Masks, MOST_SIDE, PLANES, PLANE_TABLE, PLANE_WORDS};
use crate::building::mixture::choices;
use crate::forms::fast::form_count;
use crate::forms::mixture::{uneven, uniform};
use crate::random::Random;

/// A coefficient with 1,597 forms; none has more.
pub const MOST_FORMED: i32 = 858_993_459;

pub fn grid(random: &mut Random) -> Grid {
    let mut side = || {
        let any = 1 + random.below(MOST_SIDE);
        random.pick(&[1, MOST_SIDE, any, any, any, any])
    };
    Grid::new(side(), side())
}

/// So many bits with the sign, 1 to 32.
fn of_bits(random: &mut Random) -> i32 {
    let bits = 1 + random.below(32);
    (random.bits() as i64 >> (64 - bits)) as i32
}

fn end(random: &mut Random) -> i32 {
    random.pick(&[i32::MIN, i32::MAX])
}

fn most_formed(random: &mut Random) -> i32 {
    random.pick(&[MOST_FORMED, -MOST_FORMED])
}

fn zero(_: &mut Random) -> i32 {
    0
}

/// A coefficient of some kind.
pub type Kind = fn(&mut Random) -> i32;
pub const KINDS: [Kind; 7] = [of_bits, uniform, uneven, end, zero, most_formed, any];

/// Of any of the other kinds, those with few forms more often.
fn any(random: &mut Random) -> i32 {
    match random.below(40) {
        0 => most_formed(random),
        1..4 => uneven(random),
        4..8 => end(random),
        8..12 => zero(random),
        12..18 => uniform(random),
        _ => of_bits(random),
    }
}

/// Lengthens a table now and then, with anything.
fn lengthen<T>(random: &mut Random, table: &mut Vec<T>, any: fn(u64) -> T) {
    for _ in 0..random.pick(&[0, 0, 0, 1, 2, 40, 300]) {
        table.push(any(random.bits()));
    }
}

/// The lengths of two lent tables: what is asked for, and now and then more.
fn tables(random: &mut Random, length: usize) -> [usize; 2] {
    [0; 2].map(|_| length + random.pick(&[0, 0, 0, 1, 2, 200]))
}

/// A call that writes coefficients of this kind and is accepted, with anything past the cells.
pub fn writing_of(random: &mut Random, grid: Grid, kind: Kind) -> Writing {
    let coefficients: Vec<i32> = (0..grid.cells()).map(|_| kind(random)).collect();
    let choices = choices(random, &coefficients);
    let mut call = Writing::new(grid, &coefficients, &choices);
    lengthen(random, &mut call.coefficients, |bits| bits as i32);
    lengthen(random, &mut call.choices, |bits| bits as u32);
    call.tables = tables(random, PLANE_TABLE);
    call
}

/// The bits of a word that belong to cells.
fn cell_bits(grid: Grid, word: usize) -> u64 {
    let first = 64 * (word % PLANE_WORDS);
    match grid.cells().saturating_sub(first) {
        cells @ 0..64 => (1 << cells) - 1,
        _ => u64::MAX,
    }
}

/// Planes without an overlap in a cell: dense, sparse or anything between. Past the cells there is
/// nothing, anything, or an overlap in every bit.
pub fn planes(random: &mut Random, grid: Grid) -> Masks<u64> {
    let (used, sign) = (random.below(5), random.below(5));
    let past = random.below(3);
    let mut planes = Masks::zeros(PLANE_TABLE);
    for word in 0..PLANE_TABLE {
        let (nonzero, ones) = (thinned(random, used), thinned(random, sign));
        let cells = cell_bits(grid, word);
        let [plus, minus] = match past {
            0 => [0; 2],
            1 => [random.bits(), random.bits()],
            _ => [u64::MAX; 2],
        };
        planes.plus[word] = nonzero & ones & cells | plus & !cells;
        planes.minus[word] = nonzero & !ones & cells | minus & !cells;
    }
    planes
}

/// Random bits: none, few, half, most or all.
fn thinned(random: &mut Random, amount: usize) -> u64 {
    let few = random.bits() & random.bits() & random.bits() & random.bits();
    match amount {
        0 => 0,
        1 => few,
        2 => random.bits(),
        3 => !few,
        _ => u64::MAX,
    }
}

/// A call that reads and is accepted, with anything past the words and masks that are asked for.
pub fn reading_of(random: &mut Random, grid: Grid) -> Reading {
    let mut call = Reading::new(grid, &planes(random, grid));
    lengthen(random, &mut call.planes.plus, |bits| bits);
    lengthen(random, &mut call.planes.minus, |bits| bits);
    call.tables = tables(random, grid.cells());
    call
}

/// Puts both digits in a cell of a plane.
pub fn plant(planes: &mut Masks<u64>, cell: usize, plane: usize) {
    let (word, bit) = (PLANE_WORDS * plane + cell / 64, 1 << (cell % 64));
    planes.plus[word] |= bit;
    planes.minus[word] |= bit;
}

/// A cell, the first and the last more often.
fn some_cell(random: &mut Random, cells: usize) -> usize {
    let any = random.below(cells);
    random.pick(&[0, cells - 1, any, any, any])
}

/// A choice or several that are not below the number of forms.
fn choices_past(random: &mut Random, call: &mut Writing) {
    for _ in 0..random.pick(&[1, 1, 2, 5]) {
        let cell = some_cell(random, call.grid.cells());
        let mut forms = 0;
        form_count(call.coefficients[cell], &mut forms);
        call.choices[cell] = random.pick(&[forms, forms, forms + 1, 1597, 1 << 31, u32::MAX]);
    }
}

/// An overlap or several: in one plane or many, in one cell or many.
fn overlaps(random: &mut Random, call: &mut Reading) {
    let cell = some_cell(random, call.grid.cells());
    let plane = random.below(PLANES);
    for _ in 0..random.pick(&[1, 1, 2, 3, 20]) {
        let other = some_cell(random, call.grid.cells());
        let cell = random.pick(&[cell, other]);
        let other = random.below(PLANES);
        let plane = random.pick(&[plane, other]);
        plant(&mut call.planes, cell, plane);
    }
}

/// Sides past the bounds; of many pairs the product wraps, to 0, to 1 or to something small.
pub const SIDES_PAST: [Grid; 26] = [
    sides(0, 0),
    sides(0, 1),
    sides(0, 16),
    sides(16, 0),
    sides(0, 17),
    sides(17, 17),
    sides(17, 1),
    sides(1, 17),
    sides(16, 17),
    sides(17, 16),
    sides(2, 128),
    sides(256, 1),
    sides(1, 256),
    sides(1 << 32, 1 << 32),
    sides(1 << 60, 16),
    sides(16, 1 << 60),
    sides((1 << 60) + 1, 16),
    sides(1, (1 << 32) + 1),
    sides((1 << 32) + 16, 16),
    sides(1 << 63, 2),
    sides((1 << 63) + 1, 2),
    sides(3, 0xaaaa_aaaa_aaaa_aaab),
    sides(0xf0f0_f0f0_f0f0_f0f1, 17),
    sides(usize::MAX, usize::MAX),
    sides(usize::MAX, 1),
    sides(16, usize::MAX),
];

const fn sides(height: usize, width: usize) -> Grid {
    Grid { height, width }
}

/// A length that is short of another.
fn short_of(random: &mut Random, length: usize) -> usize {
    let any = random.below(length);
    random.pick(&[0, length - 1, length - 1, any])
}

/// Bits: a choice or an overlap, a short table, a side. The first stands alone more often, since
/// either of the others hides it.
const DAMAGES: [usize; 10] = [1, 1, 1, 1, 2, 3, 4, 5, 6, 7];

/// A call that writes with one thing or several that are not right.
pub fn damaged_writing(random: &mut Random) -> Writing {
    let grid = grid(random);
    let mut call = writing_of(random, grid, any);
    let which = random.pick(&DAMAGES);
    if which & 1 != 0 {
        choices_past(random, &mut call);
    }
    if which & 2 != 0 {
        match random.below(4) {
            0 => call.coefficients.truncate(short_of(random, grid.cells())),
            1 => call.choices.truncate(short_of(random, grid.cells())),
            table => call.tables[table - 2] = short_of(random, PLANE_TABLE),
        }
    }
    if which & 4 != 0 {
        call.grid = random.pick(&SIDES_PAST);
    }
    call
}

/// A call that reads with one thing or several that are not right.
pub fn damaged_reading(random: &mut Random) -> Reading {
    let grid = grid(random);
    let mut call = reading_of(random, grid);
    let which = random.pick(&DAMAGES);
    if which & 1 != 0 {
        overlaps(random, &mut call);
    }
    if which & 2 != 0 {
        let masks = &mut call.planes;
        match random.below(4) {
            0 => masks.plus.truncate(short_of(random, PLANE_TABLE)),
            1 => masks.minus.truncate(short_of(random, PLANE_TABLE)),
            table => call.tables[table - 2] = short_of(random, grid.cells()),
        }
    }
    if which & 4 != 0 {
        call.grid = random.pick(&SIDES_PAST);
    }
    call
}
