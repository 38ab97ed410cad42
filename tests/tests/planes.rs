//! The core's planes, and the fast version's, against the literal ones, written and read.

mod planes_check;

use fir_tests::answer::Answer;
use fir_tests::forms::literal::minimal_strings;
use fir_tests::planes::call::{Reading, Writing};
use fir_tests::planes::mixture::{self, plant, MOST_FORMED, SIDES_PAST};
use fir_tests::planes::{Grid, Masks, MOST_CELLS, MOST_SIDE, PLANES, PLANE_TABLE};
use fir_tests::random::Random;
use planes_check::{check_reading, check_writing, Read, Written};

const RANDOM_READINGS: usize = 4_000;
const DAMAGED_CALLS: usize = 4_000;
const WHOLE: Grid = Grid {
    height: MOST_SIDE,
    width: MOST_SIDE,
};

/// The wanted words that are not 0, each with its number.
fn figure(call: &Writing, plus: &[(usize, u64)], minus: &[(usize, u64)]) {
    let mut wanted = Masks::zeros(PLANE_TABLE);
    for (table, words) in [(&mut wanted.plus, plus), (&mut wanted.minus, minus)] {
        for (number, word) in words {
            table[*number] = *word;
        }
    }
    let planes = check_writing(call, &mut Written::default());
    assert_eq!(planes.unwrap(), wanted, "{call:?}");
}

/// 45 is 64 - 16 - 4 + 1, and its form 3 is 32 + 16 - 2 - 1.
#[test]
fn figures_of_planes() {
    let one = Grid::new(1, 1);
    figure(&Writing::new(one, &[0], &[0]), &[], &[]);
    figure(&Writing::new(one, &[-1], &[0]), &[], &[(0, 1)]);
    let ends = Writing::new(Grid::new(1, 2), &[i32::MIN, i32::MAX], &[0; 2]);
    figure(&ends, &[(124, 2)], &[(0, 2), (124, 1)]);
    let (coefficients, choices) = ([45, -45, 0, 180, 3, -6], [0, 3, 0, 3, 1, 0]);
    let plus = [(0, 0b010011), (4, 0b110010), (24, 0b001001), (28, 0b001000)];
    let minus = [
        (8, 0b001001),
        (12, 0b101000),
        (16, 0b000011),
        (20, 0b000010),
    ];
    for grid in [Grid::new(2, 3), Grid::new(3, 2), Grid::new(1, 6)] {
        figure(&Writing::new(grid, &coefficients, &choices), &plus, &minus);
    }
    let mut coefficients = [0; MOST_CELLS];
    let cells = [(63, 1), (64, -2), (127, 4), (128, 8), (255, i32::MIN)];
    for (cell, n) in cells {
        coefficients[cell] = n;
    }
    let call = Writing::new(WHOLE, &coefficients, &[0; MOST_CELLS]);
    let (first, last) = (1, 1 << 63);
    let plus = [(0, last), (9, last), (14, first)];
    figure(&call, &plus, &[(5, first), (127, last)]);
}

/// Every cell's digits differ, and are at the planes that they come from.
#[test]
fn figures_of_cells() {
    let mut planes = Masks::zeros(PLANE_TABLE);
    for cell in 0..MOST_CELLS {
        let (word, bit) = (cell / 64, 1 << (cell % 64));
        for plane in (0..8).filter(|plane| cell >> plane & 1 == 1) {
            planes.plus[4 * plane + word] |= bit;
            planes.minus[4 * (31 - plane) + word] |= bit;
        }
    }
    let cells = check_reading(&Reading::new(WHOLE, &planes), &mut Read::default()).unwrap();
    let numbers: Vec<u32> = (0..256).collect();
    let reversed: Vec<u32> = numbers.iter().map(|cell| cell.reverse_bits()).collect();
    assert_eq!((cells.plus, cells.minus), (numbers, reversed));
}

/// Coefficients of every kind on every grid.
#[test]
fn every_grid_written() {
    let mut random = Random::new(60);
    let mut tally = Written::default();
    for grid in Grid::all() {
        for kind in mixture::KINDS {
            let call = mixture::writing_of(&mut random, grid, kind);
            check_writing(&call, &mut tally).unwrap();
        }
    }
    println!("{tally:?}");
    let calls = 256 * mixture::KINDS.len();
    assert_eq!((tally.accepted, tally.grids.count()), (calls, 256));
    assert!(tally.bits.iter().all(|count| *count > 500));
    assert!(tally.zeros > 2000 && tally.least > 2000 && tally.greatest > 2000);
    assert!(tally.most_formed > 2000 && tally.last > 2000 && tally.between > 2000);
    assert!(tally.past > calls / 4);
}

fn refused<T>(refusal: u32, place: usize) -> Result<T, Answer> {
    Err(Answer::refused(refusal, place))
}

/// Every form of coefficients with few and with many, and the first choices past them.
#[test]
fn every_choice() {
    let mut tally = Written::default();
    let few = [0, 1, -1, 3, 11, 13, 45, 180, -45, i32::MAX, i32::MIN];
    for n in few.into_iter().chain([MOST_FORMED, -MOST_FORMED]) {
        let forms = minimal_strings(n).len() as u32;
        for first in (0..forms).step_by(MOST_CELLS) {
            let choices = first..first + MOST_CELLS as u32;
            let choices: Vec<u32> = choices.map(|choice| choice.min(forms - 1)).collect();
            let call = Writing::new(WHOLE, &[n; MOST_CELLS], &choices);
            check_writing(&call, &mut tally).unwrap();
        }
        for past in [forms, forms + 1, 1 << 31, u32::MAX] {
            let call = Writing::new(Grid::new(1, 2), &[n; 2], &[forms - 1, past]);
            assert_eq!(check_writing(&call, &mut tally), refused(9, 1));
        }
    }
    println!("{tally:?}");
    assert_eq!(
        (tally.accepted, tally.refusals.refused[9]),
        (11 + 14, 13 * 4)
    );
    assert!(tally.between > 2 * 1595);
}

/// A wrong choice at every cell, alone and with others after it.
#[test]
fn every_place_of_a_choice() {
    let mut tally = Written::default();
    for grid in [WHOLE, Grid::new(9, 7), Grid::new(13, 5), Grid::new(1, 1)] {
        let cells = grid.cells();
        for cell in 0..cells {
            let mut call = Writing::new(grid, &vec![45; cells], &vec![4; cells]);
            call.choices[cell] = 5;
            assert_eq!(check_writing(&call, &mut tally), refused(9, cell));
            call.choices[cell..].fill(u32::MAX);
            assert_eq!(check_writing(&call, &mut tally), refused(9, cell));
            call.choices[..cell].fill(0);
            call.coefficients[cell..].fill(0);
            call.choices[cell..].fill(1);
            assert_eq!(check_writing(&call, &mut tally), refused(9, cell));
        }
    }
    assert_eq!(tally.refusals.places[9].len(), MOST_CELLS);
}

/// Anything without an overlap in a cell, whatever lies past the cells.
#[test]
fn random_readings() {
    let mut random = Random::new(62);
    let mut tally = Read::default();
    for grid in Grid::all() {
        check_reading(&mixture::reading_of(&mut random, grid), &mut tally).unwrap();
    }
    for _ in 0..RANDOM_READINGS {
        let grid = mixture::grid(&mut random);
        check_reading(&mixture::reading_of(&mut random, grid), &mut tally).unwrap();
    }
    println!("{tally:?}");
    assert_eq!(tally.grids.count(), 256);
    let often = RANDOM_READINGS / 20;
    assert!(tally.past > often && tally.overlap_past > often && tally.full > often);
}

/// An overlap in each cell past the last, in one plane or in all, is no overlap.
#[test]
fn overlaps_past_the_cells() {
    let mut random = Random::new(63);
    let mut tally = Read::default();
    for grid in Grid::all().filter(|grid| *grid != WHOLE) {
        let past = grid.cells()..MOST_CELLS;
        for cells in [past.clone(), past.start..past.start + 1] {
            let plane = random.below(PLANES);
            for planes in [0..PLANES, plane..plane + 1] {
                let mut masks = Masks::zeros(PLANE_TABLE);
                for cell in cells.clone() {
                    planes
                        .clone()
                        .for_each(|plane| plant(&mut masks, cell, plane));
                }
                check_reading(&Reading::new(grid, &masks), &mut tally).unwrap();
            }
        }
    }
    assert_eq!((tally.accepted, tally.overlap_past), (255 * 4, 255 * 4));
}

/// An overlap in every cell and plane, alone.
#[test]
fn every_place_of_an_overlap() {
    let mut tally = Read::default();
    for cell in 0..MOST_CELLS {
        for plane in 0..PLANES {
            let mut masks = Masks::zeros(PLANE_TABLE);
            plant(&mut masks, cell, plane);
            let call = Reading::new(WHOLE, &masks);
            assert_eq!(check_reading(&call, &mut tally), refused(8, cell));
        }
    }
    assert_eq!(
        (tally.single, tally.in_planes.len()),
        (MOST_CELLS * PLANES, PLANES)
    );
    assert_eq!(tally.refusals.places[8].len(), MOST_CELLS);
}

/// Two cells of each grid overlap, in one plane or several: the lower cell is answered, whichever
/// plane is lower.
#[test]
fn the_lowest_cell_that_overlaps() {
    let mut random = Random::new(64);
    let mut tally = Read::default();
    let planes: [[&[usize]; 2]; 5] = [
        [&[31], &[0]],
        [&[1], &[0]],
        [&[0], &[31]],
        [&[17], &[17]],
        [&[5, 30, 31], &[4, 5]],
    ];
    for grid in Grid::all().filter(|grid| *grid != Grid::new(1, 1)) {
        let last = grid.cells() - 1;
        let any = random.below(last);
        for (low, high) in [(0, last), (any, last), (any, any + 1), (0, 1)] {
            for [low_planes, high_planes] in planes {
                let mut masks = mixture::planes(&mut random, grid);
                let mut at = |cell, planes: &[usize]| {
                    planes
                        .iter()
                        .for_each(|plane| plant(&mut masks, cell, *plane))
                };
                at(low, low_planes);
                at(high, high_planes);
                let call = Reading::new(grid, &masks);
                assert_eq!(check_reading(&call, &mut tally), refused(8, low));
            }
        }
    }
    println!("{tally:?}");
    let each = 255 * 4;
    let seen = (tally.cells, tally.planes, tally.higher);
    assert_eq!(seen, (5 * each, each, 3 * each));
}

/// Each check before the next, with all the later ones broken as well.
#[test]
fn order_of_refusals() {
    let (written, read) = (&mut Written::default(), &mut Read::default());
    let grid = Grid::new(2, 3);
    let mut writing = Writing::new(grid, &[45, 0, 3, -6, 1, 7], &[4, 0, 1, 1, 0, 0]);
    check_writing(&writing, written).unwrap();
    for (cell, choice) in [(5, 1597), (3, 2), (1, 1), (0, 5)] {
        writing.choices[cell] = choice;
        assert_eq!(check_writing(&writing, written), refused(9, cell));
    }
    let mut reading = Reading::new(grid, &Masks::zeros(PLANE_TABLE));
    check_reading(&reading, read).unwrap();
    for (cell, plane) in [(5, 0), (3, 31), (1, 7), (0, 31)] {
        plant(&mut reading.planes, cell, plane);
        assert_eq!(check_reading(&reading, read), refused(8, cell));
    }
    writing.tables[1] = 127;
    reading.tables[1] = 5;
    assert_eq!(check_writing(&writing, written), refused(3, 0));
    assert_eq!(check_reading(&reading, read), refused(3, 0));
    for grid in SIDES_PAST {
        (writing.grid, reading.grid) = (grid, grid);
        assert_eq!(check_writing(&writing, written), refused(14, 0));
        assert_eq!(check_reading(&reading, read), refused(14, 0));
    }
}

/// Sides past the bounds, with tables that are empty, just long enough for a grid, and longer.
#[test]
fn sides_past_the_bounds() {
    let (written, read) = (&mut Written::default(), &mut Read::default());
    for grid in SIDES_PAST {
        for (cells, words) in [(0, 0), (1, 128), (256, 128), (272, 128), (300, 200)] {
            let mut writing = Writing::new(grid, &vec![45; cells], &vec![4; cells]);
            writing.tables = [words; 2];
            assert_eq!(check_writing(&writing, written), refused(14, 0));
            let reading = Reading {
                grid,
                planes: Masks::zeros(words),
                tables: [cells; 2],
            };
            assert_eq!(check_reading(&reading, read), refused(14, 0));
        }
    }
}

/// Four lengths, each one under what is asked for, just that, or more.
fn lengths(asked: [usize; 4]) -> impl Iterator<Item = [usize; 4]> {
    (0..3usize.pow(4)).map(move |code| {
        let length = |table: usize| match code / 3usize.pow(table as u32) % 3 {
            0 => asked[table] - 1,
            1 => asked[table],
            _ => asked[table] + 40,
        };
        [0, 1, 2, 3].map(length)
    })
}

/// Every table under its length, at it and past it, with a wrong choice or an overlap at the last cell
/// and past it.
#[test]
fn every_length_of_tables() {
    let (written, read) = (&mut Written::default(), &mut Read::default());
    let mut random = Random::new(65);
    let any = mixture::grid(&mut random);
    for grid in [
        Grid::new(1, 1),
        WHOLE,
        Grid::new(16, 15),
        Grid::new(8, 8),
        any,
    ] {
        let cells = grid.cells();
        for [a, b, plus, minus] in lengths([cells, cells, 128, 128]) {
            let mut writing = Writing::new(grid, &vec![45; a], &vec![4; b]);
            writing.tables = [plus, minus];
            writing.choices[b.min(cells)..].fill(5);
            let short = a < cells || b < cells || plus < 128 || minus < 128;
            let result = check_writing(&writing, written);
            assert_eq!(result.err(), short.then_some(Answer::refused(3, 0)));
            let mut reading = Reading::new(grid, &mixture::planes(&mut random, grid));
            reading.planes.plus.resize(plus, u64::MAX);
            reading.planes.minus.resize(minus, u64::MAX);
            reading.tables = [a, b];
            let result = check_reading(&reading, read);
            assert_eq!(result.err(), short.then_some(Answer::refused(3, 0)));
            if !short {
                writing.choices[cells - 1] = 5;
                assert_eq!(check_writing(&writing, written), refused(9, cells - 1));
                plant(&mut reading.planes, cells - 1, 31);
                assert_eq!(check_reading(&reading, read), refused(8, cells - 1));
            }
        }
    }
    assert_eq!((written.accepted, read.accepted), (5 * 16, 5 * 16));
}

/// One thing or several that are not right.
#[test]
fn damaged_calls() {
    let mut random = Random::new(66);
    let (mut written, mut read) = (Written::default(), Read::default());
    for _ in 0..DAMAGED_CALLS {
        let writing = mixture::damaged_writing(&mut random);
        check_writing(&writing, &mut written).unwrap_err();
        let reading = mixture::damaged_reading(&mut random);
        check_reading(&reading, &mut read).unwrap_err();
    }
    println!("{written:?}\n{read:?}");
    let often = DAMAGED_CALLS / 40;
    for (refusals, last) in [(&written.refusals, 9), (&read.refusals, 8)] {
        assert!([14, 3, last].map(|n| refusals.refused[n] > often) == [true; 3]);
        assert!(refusals.places[last].len() > 100);
        refusals.assert_pairs(&format!("14-3 14-{last} 3-{last}"), often);
    }
    assert!(read.single > often && read.planes > often);
    assert!(read.cells > often && read.higher > often);
}
