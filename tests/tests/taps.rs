//! The core's rounding of taps, and the fast version's, against the literal one, bit for bit.

mod taps_check;

use fir_tests::answer::{Answer, TapAnswer, ACCEPTED};
use fir_tests::random::Random;
use fir_tests::taps::set::Set;
use fir_tests::taps::{hard, hard_sets, literal, mixture};
use std::collections::HashSet;
use taps_check::{check_set, check_tap, show, Tally};

const RANDOM_TAPS: usize = 4_000_000;
const RANDOM_SETS: usize = 1_000_000;

/// The wanted answer, coefficients, divisor and leftover of an accepted set.
fn figure(set: Set, coefficients: &[i32], divisor: f64, leftover: f64) {
    check_set(&set, &mut Tally::default());
    let outcome = set.run(literal::round_taps);
    assert_eq!(outcome.answer, ACCEPTED);
    assert_eq!(outcome.coefficients(set.taps.len()), coefficients);
    assert_eq!(outcome.divisor, divisor.to_bits());
    assert_eq!(outcome.leftover, leftover.to_bits());
}

fn refused(set: Set, refusal: u32, place: u32) {
    check_set(&set, &mut Tally::default());
    let answer = set.run(literal::round_taps).answer;
    assert_eq!(answer, Answer { refusal, place }, "{}", show(&set));
}

#[test]
fn figures_of_one_tap() {
    let accepted = |tap: f64, fraction_bits, coefficient| {
        check_tap(tap.to_bits(), fraction_bits, &mut Tally::default());
        let answer = literal::round_tap(tap.to_bits(), fraction_bits);
        let wanted = TapAnswer::accepted(coefficient);
        assert_eq!(answer, wanted, "{tap} at {fraction_bits}");
    };
    accepted(0.625, 2, 2);
    accepted(-0.625, 2, -2);
    accepted(0.5, 2, 2);
    accepted(0.5, 0, 0);
    accepted(-0.5, 0, 0);
    accepted(1.5, 0, 2);
    accepted(-1.5, 0, -2);
    accepted(2147483646.5, 0, i32::MAX - 1);
    accepted(-2147483648.5, 0, i32::MIN);
    accepted(-1.0, 31, i32::MIN);
    accepted(-0.0, 15, 0);
    accepted(0.49999999999999994, 0, 0);
    accepted(-2147483648.25, 0, i32::MIN);
    let refused = |tap: f64, fraction_bits, refusal| {
        check_tap(tap.to_bits(), fraction_bits, &mut Tally::default());
        let answer = literal::round_tap(tap.to_bits(), fraction_bits);
        assert_eq!(answer, TapAnswer::refused(refusal));
    };
    refused(1.0, 31, 6);
    refused(1.0 - f64::EPSILON / 2.0, 31, 6);
    refused(2147483647.5, 0, 6);
    refused(-2147483648.5000005, 0, 6);
    refused(f64::NAN, 31, 5);
    refused(f64::NAN, 32, 4);
}

#[test]
fn figures_of_sets() {
    figure(Set::new(&[0.625], 2, 0), &[2], 1.0, 0.5);
    figure(Set::new(&[-0.625], 2, 0), &[-2], 1.0, -0.5);
    figure(Set::new(&[0.5], 2, 0), &[2], 1.0, 0.0);
    figure(Set::new(&[1.0; 4], 2, 1), &[1; 4], 4.0, 0.0);
    figure(Set::new(&[-1.0; 4], 2, 1), &[1; 4], -4.0, 0.0);
    figure(Set::new(&[0.25, -0.25], 0, 0), &[0, 0], 1.0, 0.25);
    figure(Set::new(&[-0.25, 0.25], 0, 0), &[0, 0], 1.0, -0.25);
    figure(Set::new(&[-0.0], 3, 0), &[0], 1.0, 0.0);
    figure(Set::new(&[-2147483648.25], 0, 0), &[i32::MIN], 1.0, -0.25);
    figure(Set::new(&[-2147483648.5], 0, 0), &[i32::MIN], 1.0, -0.5);
    refused(Set::new(&[], 2, 1), 1, 0);
    refused(Set::new(&[0.0; 257], 2, 0), 2, 0);
    refused(Set::new(&[0.0; 2], 2, 0).with_table(1), 3, 0);
    refused(Set::new(&[0.0; 2], 32, 0), 4, 0);
    refused(Set::new(&[1e300, 0.0, f64::NAN], 2, 0), 5, 2);
    refused(Set::new(&[1e300, 0.0, f64::NAN], 2, 1), 5, 2);
    refused(Set::new(&[1.0, -1.0], 2, 1), 7, 0);
    refused(Set::new(&[-0.0, -0.0], 2, 1), 7, 0);
    refused(Set::new(&[f64::MAX, f64::MAX, -f64::MAX], 2, 1), 7, 0);
    refused(Set::new(&[0.0, 0.0, 1e300], 2, 0), 6, 2);
    // Tap 0's quotient is out of bounds, tap 1's infinite.
    let (large, small) = (2f64.powi(600), 2f64.powi(-500));
    let taps = [small * 2f64.powi(40), large, -large, small];
    refused(Set::new(&taps, 0, 1), 7, 1);
}

/// The earliest of several halves is reported, with the sign of where it went.
#[test]
fn figures_of_halves() {
    figure(Set::new(&[0.25, 2.5, 1.5], 0, 0), &[0, 2, 2], 1.0, 0.5);
    figure(Set::new(&[0.25, 1.5, 2.5], 0, 0), &[0, 2, 2], 1.0, -0.5);
    figure(Set::new(&[-1.5, -2.5, 1.5], 0, 0), &[-2, -2, 2], 1.0, 0.5);
    figure(Set::new(&[-2.5, -1.5, 1.5], 0, 0), &[-2, -2, 2], 1.0, -0.5);
    figure(Set::new(&[-0.5, 0.5], 0, 0), &[0, 0], 1.0, -0.5);
    figure(Set::new(&[0.5, -0.5], 0, 0), &[0, 0], 1.0, 0.5);
    figure(Set::new(&[0.625, 0.375], 2, 0), &[2, 2], 1.0, 0.5);
    figure(Set::new(&[1.0, 3.0], 1, 1), &[0, 2], 4.0, 0.5);
    figure(Set::new(&[3.0, 1.0], 1, 1), &[2, 0], 4.0, -0.5);
}

/// A half of this sign and both its neighbours: it goes to the even number beside it, and they to the
/// nearer one.
fn check_half(whole: i64, sign: i64, fraction_bits: u32, tally: &mut Tally) {
    let half = sign as f64 * (whole as f64 + 0.5) / (1u64 << fraction_bits) as f64;
    let sizes = [whole, whole + whole % 2, whole + 1];
    for (bits, size) in hard::with_neighbours(half.to_bits()).into_iter().zip(sizes) {
        check_tap(bits, fraction_bits, tally);
        let found = literal::round_tap(bits, fraction_bits);
        let wanted = TapAnswer::of_whole(sign * size);
        assert_eq!(found, wanted, "{bits:#018x} at {fraction_bits}");
    }
}

/// At every F, of both signs, small ones and those beside every power of two.
#[test]
fn halves_go_to_even() {
    let mut tally = Tally::default();
    for fraction_bits in 0..=31 {
        for whole in hard::whole_parts() {
            check_half(whole, 1, fraction_bits, &mut tally);
            check_half(whole, -1, fraction_bits, &mut tally);
        }
    }
    println!("halves {:?}, refused {:?}", tally.halves, tally.refused);
    assert!(tally.halves.iter().all(|count| *count > 32 * 200));
    assert!(tally.refused[6] > 32 * 20);
}

#[test]
fn hard_taps() {
    let mut tally = Tally::default();
    for (bits, fraction_bits) in hard::taps() {
        check_tap(bits, fraction_bits, &mut tally);
    }
    assert!(tally.halves.iter().all(|count| *count > 150));
    assert!(tally.exact > 300 && tally.rounded > 3000);
    assert!(tally.refused[4..7].iter().all(|count| *count > 300));
}

#[test]
fn random_taps() {
    let mut random = Random::new(1);
    let mut tally = Tally::default();
    for _ in 0..RANDOM_TAPS {
        let fraction_bits = mixture::fraction_bits(&mut random);
        let bits = mixture::tap_bits(&mut random, fraction_bits);
        check_tap(bits, fraction_bits, &mut tally);
    }
    println!("exact {}, rounded {}", tally.exact, tally.rounded);
    println!("halves {:?}, refused {:?}", tally.halves, tally.refused);
    assert!(tally.halves.iter().all(|count| *count > RANDOM_TAPS / 50));
    assert!(tally.rounded > RANDOM_TAPS / 2 && tally.exact > RANDOM_TAPS / 1000);
    assert!(tally.refused[4] > RANDOM_TAPS / 20);
    assert!(tally.refused[5] > RANDOM_TAPS / 10_000);
    assert!(tally.refused[6] > RANDOM_TAPS / 20);
}

#[test]
fn hard_sets_agree() {
    let mut tally = Tally::default();
    for set in hard_sets::sets() {
        check_set(&set, &mut tally);
    }
    assert!(tally.refused[1..].iter().all(|count| *count >= 10));
    assert!(tally.places[5].len() == 256 && tally.places[6].len() == 256);
    assert!(tally.ties > 50, "{}", tally.ties);
    assert!(tally.half_ties.iter().all(|count| *count > 50));
}

#[test]
fn random_sets() {
    let mut random = Random::new(2);
    let mut tally = Tally::default();
    for _ in 0..RANDOM_SETS {
        check_set(&mixture::set(&mut random), &mut tally);
    }
    println!("exact {}, rounded {}", tally.exact, tally.rounded);
    println!("ties {}, normalised {}", tally.ties, tally.normalised);
    println!("ties of halves {:?}", tally.half_ties);
    println!("refused {:?}", tally.refused);
    println!("places {:?}", tally.places.each_ref().map(HashSet::len));
    let enough = RANDOM_SETS / 200;
    assert!(tally.refused[1..].iter().all(|count| *count > enough));
    assert!(tally.exact > enough && tally.rounded > enough);
    assert!(tally.ties > enough && tally.normalised > enough);
    assert!(tally.half_ties.iter().all(|count| *count > enough));
    assert!(tally.places[5..].iter().all(|places| places.len() > 200));
    let pairs = "14 17 23 24 25 26 27 34 35 36 37 45 46 47 56 57 76";
    assert_pairs(pairs, &tally.beside);
    assert_pairs("56 76", &tally.lower);
}

/// Each pair of refusals has come up often.
fn assert_pairs(pairs: &str, counts: &[[usize; 8]; 8]) {
    for pair in pairs.split(' ').map(str::as_bytes) {
        let [first, second] = [pair[0], pair[1]].map(|digit| (digit - b'0') as usize);
        let often = counts[first][second];
        println!("{first} beside {second}: {often}");
        assert!(often > RANDOM_SETS / 1000);
    }
}
