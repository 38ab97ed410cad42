//! One call of a set entry: what goes in, and everything that comes out.

use crate::answer::Answer;

/// A set entry: taps, fraction bits, normalised, coefficients, divisor, leftover.
pub type Entry = fn(&[f64], u32, u32, &mut [i32], &mut f64, &mut f64) -> Answer;

#[derive(Clone, Debug)]
pub struct Set {
    pub taps: Vec<f64>,
    pub fraction_bits: u32,
    pub normalised: u32,
    /// The length of the table lent for the coefficients.
    pub table: usize,
}

/// The answer and all lent memory afterwards, the numbers as their bits.
#[derive(Clone, Debug, PartialEq, Eq)]
pub struct Outcome {
    pub answer: Answer,
    /// The table, with `GUARD` further elements on either side.
    pub memory: Vec<i32>,
    pub divisor: u64,
    pub leftover: u64,
}

/// Elements kept on either side of the lent table, to see writes outside it.
pub const GUARD: usize = 8;
/// What the lent divisor and leftover hold before a call: signalling not-a-numbers of both signs,
/// so that every refused call shows that it keeps their bits.
pub const DIVISOR_BEFORE: u64 = 0x7ff0_0000_0000_0001;
pub const LEFTOVER_BEFORE: u64 = 0xfff0_0000_0000_0001;

impl Set {
    /// A set with a table of just its length.
    pub fn new(taps: &[f64], fraction_bits: u32, normalised: u32) -> Self {
        Set {
            taps: taps.to_vec(),
            fraction_bits,
            normalised,
            table: taps.len(),
        }
    }

    pub fn with_table(mut self, table: usize) -> Self {
        self.table = table;
        self
    }

    pub fn memory_before(&self) -> Vec<i32> {
        (0..self.table + 2 * GUARD)
            .map(|i| 0x5a5a_0000 ^ i as i32)
            .collect()
    }

    pub fn run(&self, entry: Entry) -> Outcome {
        let taps = self.taps.clone();
        let mut memory = self.memory_before();
        let mut divisor = f64::from_bits(DIVISOR_BEFORE);
        let mut leftover = f64::from_bits(LEFTOVER_BEFORE);
        let answer = entry(
            &taps,
            self.fraction_bits,
            self.normalised,
            &mut memory[GUARD..GUARD + self.table],
            &mut divisor,
            &mut leftover,
        );
        let kept = taps.iter().zip(&self.taps);
        assert!(kept.into_iter().all(|(a, b)| a.to_bits() == b.to_bits()));
        Outcome {
            answer,
            memory,
            divisor: divisor.to_bits(),
            leftover: leftover.to_bits(),
        }
    }
}

impl Outcome {
    pub fn coefficients(&self, count: usize) -> &[i32] {
        &self.memory[GUARD..GUARD + count]
    }
}
