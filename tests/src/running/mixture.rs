//! Random samples, register content and calls.

use super::call::{Call, MOST_REGISTERS};
use super::{literal, REGISTERS};
use crate::network::{damage, mixture, Network};
use crate::random::Random;

fn sample(random: &mut Random) -> i16 {
    match random.below(6) {
        0 => random.pick(&[i16::MIN, i16::MAX]),
        1 => random.pick(&[0, 1, -1]),
        _ => random.bits() as i16,
    }
}

/// Now and then all alike, at an end of the range or 0.
pub fn samples(random: &mut Random, count: usize) -> Vec<i16> {
    if random.one_in(12) {
        let alike = random.pick(&[i16::MIN, i16::MIN, i16::MAX, 0]);
        return vec![alike; count];
    }
    (0..count).map(|_| sample(random)).collect()
}

/// Any register content, often near a wrap.
pub fn content(random: &mut Random) -> Vec<u64> {
    let ends = [0, 1, u64::MAX, 1 << 63, (1 << 63) - 1];
    let usual = random.pick(&[1, 2, 10]);
    let mut register = || match random.below(usual) {
        0 => random.bits(),
        _ => random.pick(&ends),
    };
    (0..REGISTERS).map(|_| register()).collect()
}

/// How many samples a call brings.
fn sample_count(random: &mut Random) -> usize {
    match random.below(8) {
        0 => 0,
        1..=3 => random.below(10),
        4..=6 => random.below(70),
        _ => random.below(600),
    }
}

/// A call that lends enough, and now and then more.
pub fn call(random: &mut Random, network: &Network) -> Call {
    let count = sample_count(random);
    let mut call = Call::new(network, &samples(random, count));
    call.registers = random.pick(&[REGISTERS, REGISTERS, REGISTERS + 1, MOST_REGISTERS]);
    call.outputs += random.pick(&[0, 0, 0, 1, 5, 40]);
    call
}

/// A call with one thing or several that are not right, or may not be.
fn damaged_call(random: &mut Random, network: &Network) -> Call {
    let mut call = call(random, network);
    let several = random.below(16);
    let which = random.pick(&[1, 1, 1, 2, 4, 8, several]);
    if which & 1 != 0 {
        damage::fields(random, &mut call.network);
    }
    if which & 2 != 0 {
        damage::counts_and_tables(random, &mut call.network);
    }
    if which & 4 != 0 {
        let part = random.below(REGISTERS);
        call.registers = random.pick(&[0, 1, REGISTERS - 1, part]);
    }
    if which & 8 != 0 {
        let count = call.samples.len();
        let part = random.below(count.max(1));
        call.outputs = random.pick(&[0, count.saturating_sub(1), part]);
    }
    call
}

/// A call that is turned down.
pub fn refused_call(random: &mut Random, network: &Network) -> Call {
    loop {
        let call = damaged_call(random, network);
        if literal::coefficients(&call).is_err() {
            return call;
        }
    }
}

/// A network that is small or has as many taps as can be.
pub fn network(random: &mut Random) -> Network {
    let taps = match random.below(6) {
        0 => random.pick(&[1, 2, 3, 255, 256]),
        1 | 2 => 1 + random.below(16),
        _ => 1 + random.below(REGISTERS),
    };
    let rows = random.pick(&[1, 2, 12, 12, 60]);
    mixture::network_of(random, rows, taps)
}
