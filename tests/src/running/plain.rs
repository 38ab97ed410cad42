//! The plain loop: all 256 registers are moved for every sample, as the paper has it, whatever the
//! number of taps.

use super::REGISTERS;
use crate::answer::{Answer, ACCEPTED};
use crate::network::fast::examine;
use crate::network::Network;

type Coefficients = [i32; REGISTERS];

#[inline(always)]
fn sum(register: u64, coefficient: i32, sample: i16) -> u64 {
    register.wrapping_add((coefficient as i64 * sample as i64) as u64)
}

fn feed(h: &Coefficients, samples: &[i16], r: &mut [u64; REGISTERS], outputs: &mut [i64]) {
    for (x, output) in samples.iter().zip(outputs) {
        *output = sum(r[0], h[0], *x) as i64;
        for k in 0..REGISTERS - 1 {
            r[k] = sum(r[k + 1], h[k + 1], *x);
        }
        r[REGISTERS - 1] = 0;
    }
}

#[inline(never)]
pub fn run(
    network: &Network,
    samples: &[i16],
    registers: &mut [u64],
    outputs: &mut [i64],
) -> Answer {
    let mut h = [0; REGISTERS];
    let short = registers.len() < REGISTERS || outputs.len() < samples.len();
    let answer = examine(network, short, &mut h);
    if answer == ACCEPTED {
        let registers = registers.first_chunk_mut().unwrap();
        feed(&h, samples, registers, outputs);
    }
    answer
}
