//! One call of a builder: what goes in, and everything that comes out.

use crate::answer::{Answer, ACCEPTED};
use crate::lent::Lent;
use crate::network::{Network, ROW_TABLE, ROW_WORDS, TAP_TABLE, TAP_WORDS};

/// A builder: coefficients, choices, table of rows, table of tap rows, row count.
pub type Builder = fn(&[i32], &[u32], &mut [u32], &mut [u32], &mut usize) -> Answer;

pub type Row = [u32; ROW_WORDS];
pub type TapRow = [u32; TAP_WORDS];

/// What the lent row count holds before a call.
const COUNT_BEFORE: usize = 0xc0de_5a5a_a5a5;

#[derive(Clone, Debug, PartialEq, Eq)]
pub struct Call {
    pub coefficients: Vec<i32>,
    pub choices: Vec<u32>,
    /// The words lent for rows and for tap rows.
    pub row_table: usize,
    pub tap_table: usize,
}

/// The rows of a network, and one tap row for each coefficient.
#[derive(Clone, Debug, Default, PartialEq, Eq)]
pub struct Built {
    pub rows: Vec<Row>,
    pub taps: Vec<TapRow>,
}

/// The answer and all lent memory afterwards, the tables with guards on either side.
#[derive(Clone, PartialEq, Eq)]
pub struct Outcome {
    pub answer: Answer,
    rows: Lent<u32>,
    taps: Lent<u32>,
    row_count: usize,
}

impl Call {
    /// A call with tables of just the length that is asked for.
    pub fn new(coefficients: &[i32], choices: &[u32]) -> Self {
        Call {
            coefficients: coefficients.to_vec(),
            choices: choices.to_vec(),
            row_table: ROW_TABLE,
            tap_table: TAP_TABLE,
        }
    }

    /// The same with the first form of each.
    pub fn first_forms(coefficients: &[i32]) -> Self {
        Call::new(coefficients, &vec![0; coefficients.len()])
    }

    fn before(&self, answer: Answer) -> Outcome {
        Outcome {
            answer,
            rows: Lent::marked(self.row_table, 0x5a5a_0000),
            taps: Lent::marked(self.tap_table, 0xa5a5_0000),
            row_count: COUNT_BEFORE,
        }
    }

    pub fn run(&self, builder: Builder) -> Outcome {
        let mut outcome = self.before(ACCEPTED);
        outcome.answer = builder(
            &self.coefficients,
            &self.choices,
            outcome.rows.table_mut(),
            outcome.taps.table_mut(),
            &mut outcome.row_count,
        );
        outcome
    }

    /// What must come out when this is built, or this is the refusal.
    pub fn wanted(&self, result: &Result<Built, Answer>) -> Outcome {
        match result {
            Err(refusal) => self.before(*refusal),
            Ok(built) => {
                let mut outcome = self.before(ACCEPTED);
                outcome.rows.put(&built.rows.concat());
                outcome.taps.put(&built.taps.concat());
                outcome.row_count = built.rows.len();
                outcome
            }
        }
    }
}

impl Outcome {
    /// The lent tables as a network with so many taps.
    pub fn network(&self, tap_count: usize) -> Network {
        Network {
            rows: self.rows.table().to_vec(),
            row_count: self.row_count,
            taps: self.taps.table().to_vec(),
            tap_count,
        }
    }

    /// The first thing that differs in each table, in words.
    pub fn differs(&self, wanted: &Outcome) -> String {
        format!(
            "{:?}, {} rows, wanted {:?}, {}; row word {:?}; tap word {:?}",
            self.answer,
            self.row_count,
            wanted.answer,
            wanted.row_count,
            self.rows.differs(&wanted.rows),
            self.taps.differs(&wanted.taps)
        )
    }
}
