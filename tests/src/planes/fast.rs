//! Writing and reading planes by hand for speed: the core's time is compared with this. A form is had by
//! its number, and only its nonzero digits are set. Overlaps are looked for in 64 cells at a time, and
//! masks are read 32 at a time, by transposing a square of bits.

use super::{Grid, MOST_SIDE, PLANES, PLANE_TABLE, PLANE_WORDS};
use crate::answer::{Answer, ACCEPTED};
use crate::building::chosen;
use crate::forms::fast::form_count;
use crate::forms::links::canonical;
use crate::forms::Form;

type Planes = [[u64; PLANE_WORDS]; PLANES];

#[inline(always)]
fn within_bounds(grid: Grid) -> bool {
    let within = |side: usize| side.wrapping_sub(1) < MOST_SIDE;
    within(grid.height) && within(grid.width)
}

/// The form of this number, if there is one.
#[inline(always)]
fn form(n: i32, choice: u32) -> Option<Form> {
    if choice == 0 {
        return Some(canonical(n));
    }
    let mut count = 0;
    form_count(n, &mut count);
    (choice < count).then(|| chosen::form(n, choice))
}

#[inline(always)]
fn set(planes: &mut Planes, mut mask: u32, cell: usize) {
    let (word, bit) = (cell / 64 % PLANE_WORDS, 1 << (cell % 64));
    while mask != 0 {
        planes[mask.trailing_zeros() as usize][word] |= bit;
        mask &= mask - 1;
    }
}

#[inline(never)]
pub fn write_planes(
    grid: Grid,
    coefficients: &[i32],
    choices: &[u32],
    plus: &mut [u64],
    minus: &mut [u64],
) -> Answer {
    if !within_bounds(grid) {
        return Answer::refused(14, 0);
    }
    let cells = grid.height * grid.width;
    let (Some(plus), Some(minus), Some(coefficients), Some(choices)) = (
        plus.first_chunk_mut::<PLANE_TABLE>(),
        minus.first_chunk_mut::<PLANE_TABLE>(),
        coefficients.get(..cells),
        choices.get(..cells),
    ) else {
        return Answer::refused(3, 0);
    };
    let mut planes: [Planes; 2] = Default::default();
    for (cell, (n, choice)) in coefficients.iter().zip(choices).enumerate() {
        let Some(form) = form(*n, *choice) else {
            return Answer::refused(9, cell);
        };
        set(&mut planes[0], form.plus, cell);
        set(&mut planes[1], form.minus, cell);
    }
    plus.copy_from_slice(planes[0].as_flattened());
    minus.copy_from_slice(planes[1].as_flattened());
    ACCEPTED
}

/// The lowest cell that is in both tables.
#[inline(always)]
fn overlap(
    cells: usize,
    plus: &[[u64; PLANE_WORDS]],
    minus: &[[u64; PLANE_WORDS]],
) -> Option<usize> {
    let mut both = [0; PLANE_WORDS];
    for (plus, minus) in plus.iter().zip(minus) {
        for word in 0..PLANE_WORDS {
            both[word] |= plus[word] & minus[word];
        }
    }
    let word = both.iter().position(|bits| *bits != 0)?;
    let cell = 64 * word + both[word].trailing_zeros() as usize;
    (cell < cells).then_some(cell)
}

/// Bit b of row r becomes bit r of row b.
#[inline(always)]
fn transpose(rows: &mut [u32; PLANES]) {
    let mut width = PLANES / 2;
    let mut low = 0x0000_ffff;
    while width != 0 {
        for pair in (0..PLANES).filter(|row| row & width == 0) {
            let other = (pair | width) % PLANES;
            let changed = (rows[pair] >> width ^ rows[other]) & low;
            rows[other] ^= changed;
            rows[pair] ^= changed << width;
        }
        width /= 2;
        low ^= low << width;
    }
}

/// The bit of a cell from every plane.
#[inline(always)]
fn gather(planes: &[[u64; PLANE_WORDS]], cell: usize) -> u32 {
    let bit = |plane: &[u64; PLANE_WORDS]| (plane[0] >> cell) as u32 & 1;
    let planes = planes.iter().enumerate();
    planes.fold(0, |mask, (place, plane)| mask | bit(plane) << place)
}

/// The masks of all cells.
#[inline(always)]
fn read(planes: &[[u64; PLANE_WORDS]], masks: &mut [u32]) {
    if masks.len() < 4 {
        let cells = masks.iter_mut().enumerate();
        cells.for_each(|(cell, mask)| *mask = gather(planes, cell));
        return;
    }
    for (block, masks) in masks.chunks_mut(PLANES).enumerate() {
        let half = |plane: &[u64; PLANE_WORDS]| {
            (plane[block / 2 % PLANE_WORDS] >> (block % 2 * PLANES)) as u32
        };
        let mut rows = [0; PLANES];
        for (row, plane) in rows.iter_mut().zip(planes) {
            *row = half(plane);
        }
        transpose(&mut rows);
        masks.copy_from_slice(&rows[..masks.len()]);
    }
}

#[inline(never)]
pub fn read_planes(
    grid: Grid,
    plus: &[u64],
    minus: &[u64],
    cell_plus: &mut [u32],
    cell_minus: &mut [u32],
) -> Answer {
    if !within_bounds(grid) {
        return Answer::refused(14, 0);
    }
    let cells = grid.height * grid.width;
    let (Some(plus), Some(minus), Some(cell_plus), Some(cell_minus)) = (
        plus.first_chunk::<PLANE_TABLE>(),
        minus.first_chunk::<PLANE_TABLE>(),
        cell_plus.get_mut(..cells),
        cell_minus.get_mut(..cells),
    ) else {
        return Answer::refused(3, 0);
    };
    let [plus, minus] = [plus, minus].map(|table| table.as_chunks::<PLANE_WORDS>().0);
    if let Some(cell) = overlap(cells, plus, minus) {
        return Answer::refused(8, cell);
    }
    read(plus, cell_plus);
    read(minus, cell_minus);
    ACCEPTED
}
