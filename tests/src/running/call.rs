//! One call of a runner: what goes in, and everything that comes out.

use super::REGISTERS;
use crate::answer::Answer;
use crate::network::Network;

/// An entry that runs a network: network, samples, registers, outputs.
pub type Runner = fn(&Network, &[i16], &mut [u64], &mut [i64]) -> Answer;

/// Elements kept on either side of lent memory, to see writes outside it.
const GUARD: usize = 8;
/// The most registers that are lent.
pub const MOST_REGISTERS: usize = REGISTERS + 40;

#[derive(Clone, PartialEq, Eq)]
pub struct Call {
    pub network: Network,
    pub samples: Vec<i16>,
    /// How many registers are lent.
    pub registers: usize,
    /// The length of the table lent for the outputs.
    pub outputs: usize,
}

/// The memory that registers are lent from, with guards on either side. It stays from call to call.
#[derive(Clone, Debug, PartialEq, Eq)]
pub struct Memory(Vec<u64>);

impl Memory {
    /// The registers hold this, and what lies past them holds marks.
    pub fn new(content: &[u64]) -> Self {
        let mark = |i: usize| 0x5a5a_a5a5_0000_0000 ^ i as u64;
        let mut memory = Memory((0..MOST_REGISTERS + 2 * GUARD).map(mark).collect());
        memory.set(content);
        memory
    }

    pub fn registers(&self) -> &[u64] {
        &self.0[GUARD..GUARD + REGISTERS]
    }

    pub fn set(&mut self, registers: &[u64]) {
        self.0[GUARD..GUARD + REGISTERS].copy_from_slice(registers);
    }

    fn lent(&mut self, registers: usize) -> &mut [u64] {
        &mut self.0[GUARD..GUARD + registers]
    }
}

/// The answer, and the table of outputs with guards on either side.
#[derive(Debug, PartialEq, Eq)]
pub struct Outcome {
    pub answer: Answer,
    pub outputs: Vec<i64>,
}

impl Call {
    pub fn new(network: &Network, samples: &[i16]) -> Self {
        Call {
            network: network.clone(),
            samples: samples.to_vec(),
            registers: REGISTERS,
            outputs: samples.len(),
        }
    }

    fn table(&self) -> Vec<i64> {
        let mark = |i: usize| -0x5a5a_a5a5_0000_0000 ^ i as i64;
        (0..self.outputs + 2 * GUARD).map(mark).collect()
    }

    pub fn run(&self, runner: Runner, memory: &mut Memory) -> Outcome {
        let mut outputs = self.table();
        let answer = runner(
            &self.network,
            &self.samples,
            memory.lent(self.registers),
            &mut outputs[GUARD..GUARD + self.outputs],
        );
        Outcome { answer, outputs }
    }

    /// What must come out of a call that gives this answer and these outputs, none on a refusal.
    pub fn wanted(&self, answer: Answer, given: &[i64]) -> Outcome {
        let mut outputs = self.table();
        outputs[GUARD..GUARD + given.len()].copy_from_slice(given);
        Outcome { answer, outputs }
    }
}

impl std::fmt::Debug for Call {
    fn fmt(&self, to: &mut std::fmt::Formatter) -> std::fmt::Result {
        let network = &self.network;
        let (rows, taps) = (network.row_count, network.tap_count);
        let (row_words, tap_words) = (network.rows.len(), network.taps.len());
        write!(to, "{rows} rows in {row_words} words, ")?;
        write!(to, "{taps} taps in {tap_words} words, ")?;
        let (registers, outputs) = (self.registers, self.outputs);
        write!(to, "{registers} registers, {outputs} outputs, ")?;
        write!(to, "samples {:?}", self.samples)
    }
}
