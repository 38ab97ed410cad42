//! One input through the core and the fast version, each compared with the literal one.

use fir_tests::answer::{TapAnswer, ACCEPTED};
use fir_tests::taps::literal::{self, Tap};
use fir_tests::taps::set::{Outcome, Set, DIVISOR_BEFORE, GUARD, LEFTOVER_BEFORE};
use fir_tests::taps::{core, fast};
use std::collections::HashSet;

/// What came up, counted by the literal version.
#[derive(Default)]
pub struct Tally {
    pub exact: usize,
    pub rounded: usize,
    /// Halves that went down, and up.
    pub halves: [usize; 2],
    pub refused: [usize; 8],
    /// `beside[a][b]`: a was returned, and b applied as well.
    pub beside: [[usize; 8]; 8],
    /// The same, with b at a lower place than a.
    pub lower: [[usize; 8]; 8],
    pub places: [HashSet<u32>; 8],
    /// Accepted sets whose largest leftover has an equal of the other sign.
    pub ties: usize,
    /// Of these, those where a half that went down is the first, and up.
    pub half_ties: [usize; 2],
    pub normalised: usize,
}

/// What Rust's own rounding gives, where tap × 2^F may have a fraction.
fn by_ties_even(bits: u64, fraction_bits: u32) -> Option<TapAnswer> {
    if fraction_bits > 31 {
        return None;
    }
    let scaled = f64::from_bits(bits) * (1u64 << fraction_bits) as f64;
    let near = scaled.abs() < (1u64 << 52) as f64;
    near.then(|| TapAnswer::of_whole(scaled.round_ties_even() as i64))
}

/// Counts a leftover of a half: one that went down, or up.
fn count_half(counts: &mut [usize; 2], leftover: u64) {
    let leftover = f64::from_bits(leftover);
    counts[0] += (leftover == 0.5) as usize;
    counts[1] += (leftover == -0.5) as usize;
}

pub fn check_tap(bits: u64, fraction_bits: u32, tally: &mut Tally) {
    let wanted = literal::round_tap(bits, fraction_bits);
    let at = || format!("tap {bits:#018x}, F = {fraction_bits}");
    if let Some(third) = by_ties_even(bits, fraction_bits) {
        assert_eq!(third, wanted, "{}", at());
    }
    assert_eq!(core::round_tap(bits, fraction_bits), wanted, "{}", at());
    assert_eq!(fast::round_tap(bits, fraction_bits), wanted, "{}", at());
    match literal::tap(bits, fraction_bits) {
        Tap::Exact(_) => tally.exact += 1,
        Tap::Rounded(_, leftover) => {
            tally.rounded += 1;
            count_half(&mut tally.halves, leftover);
        }
        Tap::Refused(refusal) => tally.refused[refusal as usize] += 1,
    }
    // The set entry shows the leftover too.
    let tap = [f64::from_bits(bits)];
    check_set(&Set::new(&tap, fraction_bits, 0), &mut Tally::default());
}

pub fn show(set: &Set) -> String {
    let bits = set.taps.iter().map(|tap| tap.to_bits());
    let bits: Vec<String> = bits.map(|bits| format!("{bits:#018x}")).collect();
    format!(
        "{} taps, F = {}, normalised = {}, table of {}: {}",
        set.taps.len(),
        set.fraction_bits,
        set.normalised,
        set.table,
        bits.join(" ")
    )
}

/// What holds of every outcome, whatever the literal version says.
fn check_outcome(set: &Set, outcome: &Outcome) {
    let before = set.memory_before();
    if outcome.answer.refusal != 0 {
        assert_eq!(outcome.memory, before, "{}", show(set));
        assert_eq!(outcome.divisor, DIVISOR_BEFORE, "{}", show(set));
        assert_eq!(outcome.leftover, LEFTOVER_BEFORE, "{}", show(set));
        return;
    }
    let end = GUARD + set.taps.len();
    assert_eq!(outcome.answer, ACCEPTED, "{}", show(set));
    assert_eq!(outcome.memory[..GUARD], before[..GUARD], "{}", show(set));
    assert_eq!(outcome.memory[end..], before[end..], "{}", show(set));
    let divisor = f64::from_bits(outcome.divisor);
    assert!(divisor.is_finite() && divisor != 0.0, "{}", show(set));
    let leftover = f64::from_bits(outcome.leftover);
    assert!(leftover.abs() <= 0.5, "{}", show(set));
}

pub fn check_set(set: &Set, tally: &mut Tally) {
    let wanted = set.run(literal::round_taps);
    for entry in [core::round_taps, fast::round_taps] {
        let outcome = set.run(entry);
        assert_eq!(outcome, wanted, "{}", show(set));
        check_outcome(set, &outcome);
    }
    count(set, &wanted, tally);
}

fn count(set: &Set, outcome: &Outcome, tally: &mut Tally) {
    let all = literal::refusals(&set.taps, set.fraction_bits, set.normalised, set.table);
    let Some((returned, others)) = all.split_first() else {
        tally.normalised += (set.normalised != 0) as usize;
        tally.exact += (outcome.leftover == 0) as usize;
        tally.rounded += (outcome.leftover != 0) as usize;
        if has_tie(set, outcome) {
            tally.ties += 1;
            count_half(&mut tally.half_ties, outcome.leftover);
        }
        return;
    };
    let number = returned.refusal as usize;
    tally.refused[number] += 1;
    tally.places[number].insert(returned.place);
    for other in others {
        let beside = other.refusal as usize;
        tally.beside[number][beside] += 1;
        tally.lower[number][beside] += (other.place < returned.place) as usize;
    }
}

/// Whether a tap has the reported leftover with the other sign.
fn has_tie(set: &Set, outcome: &Outcome) -> bool {
    let divisor = f64::from_bits(outcome.divisor);
    outcome.leftover != 0
        && set.taps.iter().any(|tap| {
            let value = (tap / divisor).to_bits();
            match literal::tap(value, set.fraction_bits) {
                Tap::Rounded(_, leftover) => leftover == outcome.leftover ^ 1 << 63,
                _ => false,
            }
        })
}
