//! One call of a lister: what goes in, and everything that comes out.

use super::{Form, MOST_FORMS};
use crate::answer::{Answer, ACCEPTED};
use crate::lent::Lent;

/// A lister: coefficient, table of plus masks, table of minus masks, count.
pub type Lister = fn(i32, &mut [u32], &mut [u32], &mut u32) -> Answer;

/// What the lent count holds before a call.
pub const COUNT_BEFORE: u32 = 0xc0de_5a5a;

#[derive(Clone, Copy, Debug)]
pub struct Call {
    pub n: i32,
    pub plus_table: usize,
    pub minus_table: usize,
}

/// The answer and all lent memory afterwards, the tables with guards on either side.
#[derive(Clone, PartialEq, Eq)]
pub struct Outcome {
    pub answer: Answer,
    plus: Lent<u32>,
    minus: Lent<u32>,
    count: u32,
}

impl Call {
    /// A call with tables of just the length that is asked for.
    pub fn new(n: i32) -> Self {
        Call::with_tables(n, MOST_FORMS, MOST_FORMS)
    }

    pub fn with_tables(n: i32, plus_table: usize, minus_table: usize) -> Self {
        Call {
            n,
            plus_table,
            minus_table,
        }
    }

    fn before(&self, answer: Answer) -> Outcome {
        Outcome {
            answer,
            plus: Lent::marked(self.plus_table, 0x5a5a_0000),
            minus: Lent::marked(self.minus_table, 0xa5a5_0000),
            count: COUNT_BEFORE,
        }
    }

    pub fn run(&self, lister: Lister) -> Outcome {
        let mut outcome = self.before(ACCEPTED);
        outcome.answer = lister(
            self.n,
            outcome.plus.table_mut(),
            outcome.minus.table_mut(),
            &mut outcome.count,
        );
        outcome
    }

    /// What must come out of an accepted call when these are the forms.
    pub fn listed(&self, forms: &[Form]) -> Outcome {
        let mut outcome = self.before(ACCEPTED);
        for (i, form) in forms.iter().enumerate() {
            outcome.plus.table_mut()[i] = form.plus;
            outcome.minus.table_mut()[i] = form.minus;
        }
        outcome.count = forms.len() as u32;
        outcome
    }

    /// What must come out of a call that is turned down.
    pub fn refused(&self) -> Outcome {
        self.before(Answer {
            refusal: 3,
            place: 0,
        })
    }
}

impl Outcome {
    /// The first thing that differs, in words.
    pub fn differs(&self, wanted: &Outcome) -> String {
        format!(
            "{:?}, count {}, wanted {:?}, {}; plus {:?}; minus {:?}",
            self.answer,
            self.count,
            wanted.answer,
            wanted.count,
            self.plus.differs(&wanted.plus),
            self.minus.differs(&wanted.minus)
        )
    }
}
