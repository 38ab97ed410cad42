//! One call through the core and the fast version, each compared with the literal one. What is written
//! is read back.

use fir_tests::answer::Answer;
use fir_tests::forms::literal::{digits, masks, value};
use fir_tests::forms::{Form, MOST_FORMS};
use fir_tests::lent::Element;
use fir_tests::planes::call::{Outcome, Reader, Reading, Writer, Writing};
use fir_tests::planes::literal::{self, Listings};
use fir_tests::planes::{core, fast, Grid, Masks, MOST_CELLS, PLANES};
use fir_tests::refusals::Refusals;
use std::collections::HashSet;
use std::fmt::{self, Debug, Formatter};

const WRITERS: [(&str, Writer); 2] = [("core", core::write_planes), ("fast", fast::write_planes)];
const READERS: [(&str, Reader); 2] = [("core", core::read_planes), ("fast", fast::read_planes)];

/// Grids that came up, shown by their number.
#[derive(Default)]
pub struct Grids(HashSet<Grid>);

impl Grids {
    pub fn count(&self) -> usize {
        self.0.len()
    }
}

impl Debug for Grids {
    fn fmt(&self, to: &mut Formatter) -> fmt::Result {
        write!(to, "{}", self.count())
    }
}

/// What came up in calls that write, counted by the literal version.
#[derive(Default, Debug)]
pub struct Written {
    pub accepted: usize,
    pub grids: Grids,
    /// Coefficients by the bits that they take without their sign: none for 0 and -1.
    pub bits: [usize; 32],
    pub zeros: usize,
    pub least: usize,
    pub greatest: usize,
    /// Coefficients with 1,597 forms.
    pub most_formed: usize,
    /// Choices of the last form of several, and of any between the first and it.
    pub last: usize,
    pub between: usize,
    /// Accepted calls with a choice past the cells that is not below the number of forms.
    pub past: usize,
    pub refusals: Refusals,
}

impl Written {
    fn accept(&mut self, call: &Writing, listings: &Listings) {
        self.accepted += 1;
        self.grids.0.insert(call.grid);
        let (cells, past) = call.choices.split_at(call.grid.cells());
        self.past += past.iter().any(|choice| *choice as usize >= MOST_FORMS) as usize;
        for (n, choice) in call.coefficients.iter().zip(cells) {
            let forms = listings[n].len();
            let (choice, last) = (*choice as usize, forms - 1);
            self.bits[bits(*n)] += 1;
            self.zeros += (*n == 0) as usize;
            self.least += (*n == i32::MIN) as usize;
            self.greatest += (*n == i32::MAX) as usize;
            self.most_formed += (forms == MOST_FORMS) as usize;
            self.last += (choice == last && last > 0) as usize;
            self.between += (choice > 0 && choice < last) as usize;
        }
    }
}

/// The least number of bits in which a number fits beside its sign.
fn bits(n: i32) -> usize {
    let fits = |bits: &usize| (-1i64 << bits..1 << bits).contains(&(n as i64));
    (0..32).find(fits).unwrap()
}

/// What came up in calls that read, counted by the literal version.
#[derive(Default, Debug)]
pub struct Read {
    pub accepted: usize,
    pub grids: Grids,
    /// Accepted calls with bits past the cells, and with an overlap there.
    pub past: usize,
    pub overlap_past: usize,
    /// Accepted calls with a cell that has no digit 0, and refused ones for an overlap: in one cell and
    /// plane, in several planes of the lowest cell, in several cells, and those of which a cell after
    /// the lowest overlaps in a lower plane.
    pub full: usize,
    pub single: usize,
    pub planes: usize,
    pub cells: usize,
    pub higher: usize,
    /// Planes of the lowest cell's overlap.
    pub in_planes: HashSet<usize>,
    pub refusals: Refusals,
}

impl Read {
    fn accept(&mut self, call: &Reading, cells: &Masks<u32>) {
        let Masks { plus, minus } = &call.planes;
        let past = |cell: &(usize, usize)| cell.0 >= call.grid.cells();
        let any = places()
            .filter(past)
            .any(|at| has(plus, at) || has(minus, at));
        let both = places()
            .filter(past)
            .any(|at| has(plus, at) && has(minus, at));
        let mut forms = cells.plus.iter().zip(&cells.minus);
        self.accepted += 1;
        self.grids.0.insert(call.grid);
        self.past += any as usize;
        self.overlap_past += both as usize;
        self.full += forms.any(|(plus, minus)| plus | minus == u32::MAX) as usize;
    }

    fn refuse(&mut self, call: &Reading, refusals: &[Answer]) {
        self.refusals.count(refusals);
        if refusals[0].refusal != 8 {
            return;
        }
        let Masks { plus, minus } = &call.planes;
        let overlaps = places().filter(|at| at.0 < call.grid.cells());
        let overlaps = overlaps.filter(|at| has(plus, *at) && has(minus, *at));
        let overlaps: Vec<(usize, usize)> = overlaps.collect();
        let (lowest, plane) = overlaps[0];
        let first = overlaps.iter().filter(|at| at.0 == lowest).count();
        self.single += (overlaps.len() == 1) as usize;
        self.planes += (first > 1) as usize;
        self.cells += (first < overlaps.len()) as usize;
        self.higher += overlaps[first..].iter().any(|at| at.1 < plane) as usize;
        self.in_planes.insert(plane);
    }
}

/// All cells that planes have room for, each with every plane.
fn places() -> impl Iterator<Item = (usize, usize)> {
    (0..MOST_CELLS).flat_map(|cell| (0..PLANES).map(move |plane| (cell, plane)))
}

fn has(table: &[u64], (cell, plane): (usize, usize)) -> bool {
    table[4 * plane + cell / 64] >> (cell % 64) & 1 == 1
}

fn assert_same<T: Element + Eq>(
    name: &str,
    outcome: &Outcome<T>,
    wanted: &Outcome<T>,
    call: &impl Debug,
) {
    let differs = || outcome.differs(wanted);
    assert!(outcome == wanted, "{name}: {}, {call:?}", differs());
}

/// The literal version's result, which the others share.
pub fn check_writing(call: &Writing, tally: &mut Written) -> Result<Masks<u64>, Answer> {
    let listings = literal::listings(call);
    let result = literal::write_planes(call, &listings);
    let wanted = Outcome::wanted(call.tables, &result);
    for (name, writer) in WRITERS {
        assert_same(name, &call.run(writer), &wanted, call);
    }
    match &result {
        Ok(planes) => {
            tally.accept(call, &listings);
            check_back(call, planes, &listings);
        }
        Err(_) => tally
            .refusals
            .count(&literal::writing_refusals(call, &listings)),
    }
    result
}

/// Read back, each cell has the masks of its listed form, and their value is its coefficient.
fn check_back(call: &Writing, planes: &Masks<u64>, listings: &Listings) {
    let reading = Reading::new(call.grid, planes);
    let cells = check_reading(&reading, &mut Read::default()).unwrap();
    assert_eq!(cells.plus.len(), call.grid.cells());
    for (cell, (plus, minus)) in cells.plus.into_iter().zip(cells.minus).enumerate() {
        let (n, choice) = (call.coefficients[cell], call.choices[cell] as usize);
        let form = Form { plus, minus };
        assert_eq!(
            form,
            masks(&listings[&n][choice]),
            "cell {cell} of {call:?}"
        );
        assert_eq!(
            value(&digits(form).unwrap()),
            n as i64,
            "cell {cell} of {call:?}"
        );
    }
}

/// The literal version's result, which the others share.
pub fn check_reading(call: &Reading, tally: &mut Read) -> Result<Masks<u32>, Answer> {
    let result = literal::read_planes(call);
    let wanted = Outcome::wanted(call.tables, &result);
    for (name, reader) in READERS {
        assert_same(name, &call.run(reader), &wanted, call);
    }
    match &result {
        Ok(cells) => tally.accept(call, cells),
        Err(_) => tally.refuse(call, &literal::reading_refusals(call)),
    }
    result
}
