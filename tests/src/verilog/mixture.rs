//! Random networks for texts: built ones, and any that keep the rules.

use crate::answer::ACCEPTED;
use crate::building::call::Call;
use crate::building::{core, mixture as sets};
use crate::network::{mixture, Network, MOST_TAPS, ROW_WORDS, TAP_WORDS};
use crate::random::Random;

/// What building makes of these coefficients, with the first forms.
pub fn built(coefficients: &[i32]) -> Network {
    let outcome = Call::first_forms(coefficients).run(core::build);
    assert_eq!(outcome.answer, ACCEPTED);
    outcome.network(coefficients.len())
}

/// A built network with so many taps, with any forms.
pub fn built_of(random: &mut Random, tap_count: usize) -> Network {
    let outcome = sets::call_of(random, tap_count).run(core::build);
    assert_eq!(outcome.answer, ACCEPTED);
    outcome.network(tap_count)
}

pub fn any_built(random: &mut Random) -> Network {
    let tap_count = match random.below(8) {
        0 => random.pick(&[1, 2, 255, 256]),
        1 => 1 + random.below(MOST_TAPS),
        _ => 1 + random.below(20),
    };
    built_of(random, tap_count)
}

/// A built network, or any.
pub fn network(random: &mut Random) -> Network {
    match random.one_in(2) {
        true => any_built(random),
        false => mixture::network(random),
    }
}

/// The same network with other words past the counts, and more of them.
pub fn with_other_words(random: &mut Random, network: &Network) -> Network {
    let mut other = network.clone();
    let used = [ROW_WORDS * other.row_count, TAP_WORDS * other.tap_count];
    for (table, used) in [&mut other.rows, &mut other.taps].into_iter().zip(used) {
        table[used..].fill_with(|| random.bits() as u32);
        let more = random.pick(&[0, 0, 1, 2, 300]);
        table.extend((0..more).map(|_| random.bits() as u32));
    }
    other
}
