//! Nanoseconds a call for writing and reading planes, over grids of every kind, so that one that is
//! slow for its size is seen.

use super::{best_of, calls, print, print_head};
use fir_tests::answer::{Answer, ACCEPTED};
use fir_tests::building::mixture::any_choices;
use fir_tests::forms::mixture::uniform;
use fir_tests::planes::call::{Reader, Reading, Writer, Writing};
use fir_tests::planes::mixture::{plant, MOST_FORMED};
use fir_tests::planes::{core, fast, Grid, Masks, MOST_SIDE, PLANES, PLANE_TABLE};
use fir_tests::random::Random;
use std::hint::black_box;

pub const REPETITIONS: usize = 120;

/// What a call answers and leaves.
#[derive(PartialEq)]
struct Left<T> {
    answer: Answer,
    masks: Masks<T>,
}

impl<T: Clone + Default> Left<T> {
    fn new([plus, minus]: [usize; 2]) -> Self {
        Left {
            answer: ACCEPTED,
            masks: Masks {
                plus: vec![T::default(); plus],
                minus: vec![T::default(); minus],
            },
        }
    }
}

impl Left<u64> {
    /// So many calls, all into the same tables.
    #[inline(always)]
    fn write(&mut self, call: &Writing, calls: usize, writer: Writer) {
        for _ in 0..calls {
            let Masks { plus, minus } = black_box(&mut self.masks);
            let (coefficients, choices) = black_box((&call.coefficients, &call.choices));
            self.answer = writer(call.grid, coefficients, choices, plus, minus);
        }
    }
}

impl Left<u32> {
    /// So many calls, all into the same tables.
    #[inline(always)]
    fn read(&mut self, call: &Reading, calls: usize, reader: Reader) {
        for _ in 0..calls {
            let Masks { plus, minus } = black_box(&mut self.masks);
            let planes = black_box(&call.planes);
            self.answer = reader(call.grid, &planes.plus, &planes.minus, plus, minus);
        }
    }
}

/// So many calls by the core, and by the fast version.
type Versions<'a, T> = [&'a dyn Fn(&mut Left<T>, usize); 2];

/// Prints the times of a call that has this answer, and gives the core's over the fast version's.
fn measure<T: Clone + Default + PartialEq>(
    what: &str,
    tables: [usize; 2],
    answer: Answer,
    [core, fast]: Versions<T>,
) -> f64 {
    let mut lent = [(); 2].map(|_| Left::new(tables));
    let [a, b] = &mut lent;
    let calls = calls(&mut || fast(b, 1));
    let times = best_of(
        REPETITIONS,
        [&mut || core(a, calls), &mut || fast(b, calls)],
    );
    assert!(lent[0] == lent[1] && lent[0].answer == answer, "{what}");
    print(what, times, calls);
    times[0] / times[1]
}

fn measure_writing(what: &str, call: &Writing, answer: Answer) -> f64 {
    let core = |lent: &mut Left<u64>, calls| lent.write(call, calls, core::write_planes);
    let fast = |lent: &mut Left<u64>, calls| lent.write(call, calls, fast::write_planes);
    measure(what, call.tables, answer, [&core, &fast])
}

fn measure_reading(what: &str, call: &Reading, answer: Answer) -> f64 {
    let core = |lent: &mut Left<u32>, calls| lent.read(call, calls, core::read_planes);
    let fast = |lent: &mut Left<u32>, calls| lent.read(call, calls, fast::read_planes);
    measure(what, call.tables, answer, [&core, &fast])
}

/// The greatest of some ratios.
fn worst(ratios: impl IntoIterator<Item = f64>) -> f64 {
    ratios.into_iter().fold(0.0, f64::max)
}

/// The planes that the fast version writes.
fn planes(call: &Writing) -> Masks<u64> {
    let mut lent = Left::new(call.tables);
    lent.write(call, 1, fast::write_planes);
    assert_eq!(lent.answer, ACCEPTED);
    lent.masks
}

/// Every coefficient and its choice by this.
fn writing(grid: Grid, mut cell: impl FnMut() -> (i32, u32)) -> Writing {
    let cells = (0..grid.cells()).map(|_| cell());
    let (coefficients, choices): (Vec<i32>, Vec<u32>) = cells.unzip();
    Writing::new(grid, &coefficients, &choices)
}

/// Random coefficients of 32 bits, with the first forms and with any.
fn random_writings(random: &mut Random, grid: Grid) -> [Writing; 2] {
    let first = writing(grid, || (uniform(random), 0));
    let mut any = first.clone();
    any.choices = any_choices(random, &any.coefficients);
    [first, any]
}

fn measure_writings(random: &mut Random, grid: Grid) -> f64 {
    let [first, any] = random_writings(random, grid);
    let mut small = writing(grid, || (random.from_to(-128, 127) as i32, 0));
    small.choices = any_choices(random, &small.coefficients);
    let kinds = [
        ("written, first forms", first),
        ("written, any forms", any),
        ("written, zeros", writing(grid, || (0, 0))),
        ("written, 0x55555555", writing(grid, || (0x5555_5555, 0))),
        ("written, 0x33333333", writing(grid, || (MOST_FORMED, 0))),
        (
            "written, 0x33333333 last",
            writing(grid, || (MOST_FORMED, 1596)),
        ),
        ("written, small, any", small),
    ];
    let measure = |(what, call): &(&str, Writing)| measure_writing(what, call, ACCEPTED);
    worst(kinds.iter().map(measure))
}

fn measure_readings(random: &mut Random, grid: Grid) -> f64 {
    let dense = Masks {
        plus: vec![u64::MAX; PLANE_TABLE],
        minus: vec![0; PLANE_TABLE],
    };
    let mut sparse = dense.clone();
    for (plus, minus) in sparse.plus.iter_mut().zip(&mut sparse.minus) {
        *plus = 1 << random.below(64);
        *minus = !*plus & 1 << random.below(64);
    }
    let [first, any] = random_writings(random, grid);
    let kinds = [
        ("read, dense", dense),
        ("read, sparse", sparse),
        ("read, first forms", planes(&first)),
        ("read, any forms", planes(&any)),
    ];
    let measure = |(what, planes): &(&str, Masks<u64>)| {
        measure_reading(what, &Reading::new(grid, planes), ACCEPTED)
    };
    worst(kinds.iter().map(measure))
}

/// A wrong choice and an overlap, both in the last cell.
fn measure_refusals(random: &mut Random, grid: Grid) -> f64 {
    let last = grid.cells() - 1;
    let [mut first, mut any] = random_writings(random, grid);
    let mut reading = Reading::new(grid, &planes(&any));
    plant(&mut reading.planes, last, PLANES - 1);
    first.choices[last] = u32::MAX;
    any.choices[last] = u32::MAX;
    worst([
        measure_writing("refused, first forms", &first, Answer::refused(9, last)),
        measure_writing("refused, any forms", &any, Answer::refused(9, last)),
        measure_reading("refused, overlap", &reading, Answer::refused(8, last)),
    ])
}

fn measure_grid(side: usize) -> f64 {
    let mut random = Random::new(21);
    let grid = Grid::new(side, side);
    print_head(&format!("{side} by {side}"), &["fast"]);
    let parts = [measure_writings, measure_readings, measure_refusals];
    worst(parts.map(|part| part(&mut random, grid)))
}

pub fn run() {
    let worst = worst([MOST_SIDE, 8, 4, 1].map(measure_grid));
    println!("\n{:<46}{worst:>12.2}", "worst of all grids");
}
