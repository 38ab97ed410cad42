//! Calls that write planes and calls that read them: what goes in, and everything that comes out.

use super::{Grid, Masks, PLANE_TABLE};
use crate::answer::{Answer, ACCEPTED};
use crate::lent::{Element, Lent};

/// An entry that writes planes: grid, coefficients, choices, the planes' 1s and -1s.
pub type Writer = fn(Grid, &[i32], &[u32], &mut [u64], &mut [u64]) -> Answer;
/// An entry that reads planes: grid, the planes' 1s and -1s, the cells' 1s and -1s.
pub type Reader = fn(Grid, &[u64], &[u64], &mut [u32], &mut [u32]) -> Answer;

#[derive(Clone, Debug, PartialEq, Eq)]
pub struct Writing {
    pub grid: Grid,
    pub coefficients: Vec<i32>,
    pub choices: Vec<u32>,
    /// The words lent for 1s and for -1s.
    pub tables: [usize; 2],
}

#[derive(Clone, Debug, PartialEq, Eq)]
pub struct Reading {
    pub grid: Grid,
    pub planes: Masks<u64>,
    /// The masks lent for 1s and for -1s.
    pub tables: [usize; 2],
}

/// The answer and both lent tables afterwards, with guards on either side.
#[derive(Clone, PartialEq, Eq)]
pub struct Outcome<T> {
    pub answer: Answer,
    plus: Lent<T>,
    minus: Lent<T>,
}

impl<T: Element> Outcome<T> {
    fn before([plus, minus]: [usize; 2]) -> Self {
        Outcome {
            answer: ACCEPTED,
            plus: Lent::marked(plus, 0x5a5a_0000),
            minus: Lent::marked(minus, 0xc3c3_0000),
        }
    }

    /// What must come out of such tables when these are the masks, or this is the refusal.
    pub fn wanted(tables: [usize; 2], result: &Result<Masks<T>, Answer>) -> Self {
        let mut outcome = Outcome::before(tables);
        match result {
            Err(refusal) => outcome.answer = *refusal,
            Ok(masks) => {
                outcome.plus.put(&masks.plus);
                outcome.minus.put(&masks.minus);
            }
        }
        outcome
    }

    /// The first thing that differs in each table, in words.
    pub fn differs(&self, wanted: &Self) -> String {
        let plus = self.plus.differs(&wanted.plus);
        let minus = self.minus.differs(&wanted.minus);
        let (answer, wanted) = (self.answer, wanted.answer);
        format!("{answer:?}, wanted {wanted:?}; plus {plus:?}; minus {minus:?}")
    }
}

/// What an entry is given, with guards as well.
struct Given<T>(Lent<T>);

impl<T: Element> Given<T> {
    fn new(table: &[T]) -> Self {
        Given(Lent::holding(table))
    }

    fn assert_unchanged(&self, table: &[T]) {
        let differs = self.0.differs(&Lent::holding(table));
        assert!(differs.is_none(), "input changed: {differs:?}");
    }
}

impl Writing {
    /// A call with tables of just the length that is asked for.
    pub fn new(grid: Grid, coefficients: &[i32], choices: &[u32]) -> Self {
        Writing {
            grid,
            coefficients: coefficients.to_vec(),
            choices: choices.to_vec(),
            tables: [PLANE_TABLE; 2],
        }
    }

    pub fn run(&self, writer: Writer) -> Outcome<u64> {
        let coefficients = Given::new(&self.coefficients);
        let choices = Given::new(&self.choices);
        let mut outcome = Outcome::before(self.tables);
        outcome.answer = writer(
            self.grid,
            coefficients.0.table(),
            choices.0.table(),
            outcome.plus.table_mut(),
            outcome.minus.table_mut(),
        );
        coefficients.assert_unchanged(&self.coefficients);
        choices.assert_unchanged(&self.choices);
        outcome
    }
}

impl Reading {
    /// A call with tables of just the length that is asked for.
    pub fn new(grid: Grid, planes: &Masks<u64>) -> Self {
        Reading {
            grid,
            planes: planes.clone(),
            tables: [grid.cells(); 2],
        }
    }

    pub fn run(&self, reader: Reader) -> Outcome<u32> {
        let plus = Given::new(&self.planes.plus);
        let minus = Given::new(&self.planes.minus);
        let mut outcome = Outcome::before(self.tables);
        outcome.answer = reader(
            self.grid,
            plus.0.table(),
            minus.0.table(),
            outcome.plus.table_mut(),
            outcome.minus.table_mut(),
        );
        plus.assert_unchanged(&self.planes.plus);
        minus.assert_unchanged(&self.planes.minus);
        outcome
    }
}
