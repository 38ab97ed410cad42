//! Running as the paper's sums have it: one list of all samples, and each output and register worked
//! out from it anew, in whole numbers. Slow on purpose.

use super::call::Call;
use super::REGISTERS;
use crate::answer::Answer;
use crate::network::literal;

/// The coefficients that an accepted call has, or the refusal.
pub fn coefficients(call: &Call) -> Result<Vec<i32>, Answer> {
    let short = call.registers < REGISTERS || call.outputs < call.samples.len();
    literal::coefficients(&call.network, short)
}

/// The sample j before the latest, 0 where there is none.
fn before(samples: &[i16], j: usize) -> i128 {
    samples
        .iter()
        .nth_back(j)
        .map_or(0, |sample| *sample as i128)
}

/// The sum over k of h(k) times the sample k earlier, for the latest sample.
fn output(h: &[i32], samples: &[i16]) -> i128 {
    let product = |k: usize| h[k] as i128 * before(samples, k);
    (0..h.len()).map(product).sum()
}

/// The sum over j of h(k + 1 + j) times the sample j before the latest.
fn register(h: &[i32], samples: &[i16], k: usize) -> i128 {
    let product = |j: usize| h[k + 1 + j] as i128 * before(samples, j);
    (0..h.len().saturating_sub(k + 1)).map(product).sum()
}

/// What the registers held at first, and the samples accepted since.
pub struct Stream {
    content: Vec<u64>,
    samples: Vec<i16>,
}

impl Stream {
    pub fn new(content: &[u64]) -> Self {
        Stream {
            content: content.to_vec(),
            samples: Vec::new(),
        }
    }

    /// A sum, modulo 2^64, with what register k still holds of the first content: that has moved
    /// down by one register with each of the samples.
    fn joined(&self, k: usize, moved: usize, sum: i128) -> u64 {
        assert!(i64::try_from(sum).is_ok());
        let left = self.content.get(k + moved).copied().unwrap_or(0);
        (left as i128 + sum) as u64
    }

    /// The outputs of an accepted call.
    pub fn outputs(&mut self, h: &[i32], samples: &[i16]) -> Vec<i64> {
        let mut outputs = Vec::new();
        for sample in samples {
            let moved = self.samples.len();
            self.samples.push(*sample);
            outputs.push(self.joined(0, moved, output(h, &self.samples)) as i64);
        }
        outputs
    }

    /// The registers after it.
    pub fn registers(&self, h: &[i32]) -> Vec<u64> {
        let moved = self.samples.len();
        let register = |k: usize| self.joined(k, moved, register(h, &self.samples, k));
        (0..REGISTERS).map(register).collect()
    }
}
