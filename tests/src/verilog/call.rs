//! One call of an entry that writes Verilog: what goes in, and everything that comes out.

use crate::answer::{Answer, ACCEPTED};
use crate::network::Network;

/// An entry that writes Verilog: network, area, length.
pub type Writer = fn(&Network, &mut [u8], &mut usize) -> Answer;

/// Elements kept on either side of lent memory, to see writes outside it.
const GUARD: usize = 64;

/// The answer and all lent memory afterwards, with guards on either side.
#[derive(Clone, PartialEq, Eq)]
pub struct Outcome {
    pub answer: Answer,
    area: Vec<u8>,
    length: [usize; 2 * GUARD + 1],
}

impl Outcome {
    fn before(area: usize) -> Self {
        let mark = |i: usize| (i * 37 + 11) as u8 | 0x80;
        let mut length = [0; 2 * GUARD + 1];
        for (i, word) in length.iter_mut().enumerate() {
            *word = 0xc0de_5a5a_a5a5_0000 ^ i;
        }
        Outcome {
            answer: ACCEPTED,
            area: (0..area + 2 * GUARD).map(mark).collect(),
            length,
        }
    }

    /// The text of an accepted call.
    pub fn text(&self) -> &[u8] {
        assert_eq!(self.answer, ACCEPTED);
        &self.area[GUARD..GUARD + self.length[GUARD]]
    }

    /// The first thing that differs, in words.
    pub fn differs(&self, wanted: &Outcome) -> String {
        let first = (0..self.area.len()).find(|i| self.area[*i] != wanted.area[*i]);
        let byte = first.map(|i| i as i64 - GUARD as i64);
        let lengths = [self, wanted].map(|outcome| outcome.length[GUARD]);
        let (answer, wanted) = (self.answer, wanted.answer);
        format!("{answer:?}, wanted {wanted:?}; lengths {lengths:?}; byte {byte:?}")
    }
}

pub fn run(network: &Network, area: usize, writer: Writer) -> Outcome {
    let mut outcome = Outcome::before(area);
    let lent = &mut outcome.area[GUARD..GUARD + area];
    outcome.answer = writer(network, lent, &mut outcome.length[GUARD]);
    outcome
}

/// What must come out when this is the text, or this is the refusal.
pub fn wanted(area: usize, result: &Result<String, Answer>) -> Outcome {
    let mut outcome = Outcome::before(area);
    match result {
        Err(refusal) => outcome.answer = *refusal,
        Ok(text) => {
            outcome.area[GUARD..GUARD + text.len()].copy_from_slice(text.as_bytes());
            outcome.length[GUARD] = text.len();
        }
    }
    outcome
}
