//! One call of an entry that gives a network's coefficients: what goes in, and everything that comes
//! out.

use super::Network;
use crate::answer::Answer;

/// An entry that checks a network.
pub type Checker = fn(&Network) -> Answer;
/// An entry that gives a network's coefficients: network, table.
pub type Reader = fn(&Network, &mut [i32]) -> Answer;

/// Elements kept on either side of a lent table, to see writes outside it.
pub const GUARD: usize = 8;

/// The answer and the lent table afterwards, with guards on either side.
#[derive(Clone, Debug, PartialEq, Eq)]
pub struct Outcome {
    pub answer: Answer,
    pub memory: Vec<i32>,
}

fn memory(table: usize) -> Vec<i32> {
    let mark = |i: usize| 0x5a5a_0000 ^ i as i32;
    (0..table + 2 * GUARD).map(mark).collect()
}

pub fn run(network: &Network, table: usize, reader: Reader) -> Outcome {
    let mut memory = memory(table);
    let answer = reader(network, &mut memory[GUARD..GUARD + table]);
    Outcome { answer, memory }
}

/// What must come out when these are the coefficients, or this is the refusal.
pub fn wanted(table: usize, result: &Result<Vec<i32>, Answer>) -> Outcome {
    let mut memory = memory(table);
    let answer = match result {
        Err(refusal) => *refusal,
        Ok(coefficients) => {
            memory[GUARD..GUARD + coefficients.len()].copy_from_slice(coefficients);
            crate::answer::ACCEPTED
        }
    };
    Outcome { answer, memory }
}
