//! Running written by hand for speed: the core's time is compared with this.
//!
//! Twelve samples a pass, over a window that holds outputs to come and registers alike: a sample adds
//! its products to the places from its own output on, and nothing is moved before the block ends.
//! The factors of a product are made unsigned, the coefficient c by adding 2^31 and the sample x by
//! adding 2^15, so that two products are one instruction. With C and X for these sums,
//! c·x = C·X - 2^15·C - 2^31·X + 2^46; the second term is the same in every pass, the others that
//! correct C·X are the same at every place. Fewer than four samples go one by one.

use super::REGISTERS;
use crate::answer::{Answer, ACCEPTED};
use crate::network::fast::examine;
use crate::network::Network;

/// Samples of a pass.
const PASS: usize = 12;
/// Samples of a block, at the end of which the window is copied back.
const BLOCK: usize = 43 * PASS;
/// The places that a pass changes, at most.
const PLACES: usize = REGISTERS + PASS;

/// A coefficient of 0.
const ZERO: u64 = 1 << 31;

struct Tables {
    /// The coefficients plus 2^31, with zeros before and after.
    factors: [u64; PLACES + PASS - 1],
    /// For each place, -2^15 times the sum of its factors.
    offsets: [u64; PLACES],
    /// The places that a pass changes.
    places: usize,
}

impl Tables {
    fn new(h: &[i32]) -> Self {
        let mut factors = [ZERO; PLACES + PASS - 1];
        for (c, to) in h.iter().zip(&mut factors[PASS - 1..]) {
            *to = (*c as i64 + (1 << 31)) as u64;
        }
        let mut offsets = [0; PLACES];
        for (to, factors) in offsets.iter_mut().zip(factors.windows(PASS)) {
            *to = (factors.iter().sum::<u64>() << 15).wrapping_neg();
        }
        Tables {
            factors,
            offsets,
            places: (h.len() + PASS - 1).next_multiple_of(4),
        }
    }
}

/// Adds the products of the samples of a pass, each already plus 2^15. Slower where it is inlined.
#[inline(never)]
fn pass(tables: &Tables, samples: [u16; PASS], window: &mut [u64]) {
    let sum: u64 = samples.iter().map(|y| *y as u64).sum();
    let bias = ((PASS as u64) << 46).wrapping_sub(sum << 31);
    let places = window.iter_mut().zip(&tables.offsets);
    for ((place, offset), factors) in places.zip(tables.factors.array_windows::<PASS>()) {
        let mut more = offset.wrapping_add(bias);
        for j in 0..PASS {
            let factor = factors[PASS - 1 - j] & 0xffff_ffff;
            more = more.wrapping_add(factor * samples[j] as u64);
        }
        *place = place.wrapping_add(more);
    }
}

/// One block: the window holds the registers and zeros past them.
fn block(tables: &Tables, samples: &[i16], window: &mut [u64; BLOCK + PLACES]) {
    for (i, samples) in samples.chunks(PASS).enumerate() {
        let mut lifted = [1 << 15; PASS];
        for (to, x) in lifted.iter_mut().zip(samples) {
            *to = *x as u16 ^ 1 << 15;
        }
        pass(tables, lifted, &mut window[PASS * i..][..tables.places]);
    }
}

fn feed(h: &[i32], samples: &[i16], registers: &mut [u64; REGISTERS], outputs: &mut [i64]) {
    let tables = Tables::new(h);
    let mut window = [0; BLOCK + PLACES];
    for (samples, outputs) in samples.chunks(BLOCK).zip(outputs.chunks_mut(BLOCK)) {
        let count = samples.len();
        window[..REGISTERS].copy_from_slice(registers);
        window[REGISTERS..].fill(0);
        block(&tables, samples, &mut window);
        for (output, sum) in outputs.iter_mut().zip(&window[..count]) {
            *output = *sum as i64;
        }
        registers.copy_from_slice(&window[count..count + REGISTERS]);
    }
}

/// The samples one by one, with no tables. What stands past the coefficients moves down alone.
fn feed_singly(h: &[i32], samples: &[i16], registers: &mut [u64; REGISTERS], outputs: &mut [i64]) {
    for (x, output) in samples.iter().zip(outputs) {
        let sum = |register: u64, c: i32| register.wrapping_add((c as i64 * *x as i64) as u64);
        *output = sum(registers[0], h[0]) as i64;
        for k in 1..h.len() {
            registers[k - 1] = sum(registers[k], h[k]);
        }
        registers.copy_within(h.len().., h.len() - 1);
        registers[REGISTERS - 1] = 0;
    }
}

#[inline(never)]
pub fn run(
    network: &Network,
    samples: &[i16],
    registers: &mut [u64],
    outputs: &mut [i64],
) -> Answer {
    let mut h = [0; REGISTERS];
    let short = registers.len() < REGISTERS || outputs.len() < samples.len();
    let answer = examine(network, short, &mut h);
    if answer == ACCEPTED {
        let registers = registers.first_chunk_mut().unwrap();
        let h = &h[..network.tap_count];
        let outputs = &mut outputs[..samples.len()];
        if samples.len() < 4 {
            feed_singly(h, samples, registers, outputs);
        } else {
            feed(h, samples, registers, outputs);
        }
    }
    answer
}
