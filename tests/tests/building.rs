//! The core's building, and the fast version's, against the literal one; what is built is checked
//! and run.

mod building_check;

use building_check::{check, Tally};
use fir_tests::answer::Answer;
use fir_tests::building::call::Call;
use fir_tests::building::search::{by_value, over_all_rows};
use fir_tests::building::{bounds, hard, literal, mixture, sets};
use fir_tests::forms::literal::canonical;
use fir_tests::network::{MOST_TAPS, ROW_TABLE, TAP_TABLE};
use fir_tests::random::Random;

const SMALL_SETS: usize = 20_000;
const MEDIUM_SETS: usize = 1_500;
const LARGE_SETS: usize = 60;
const DAMAGED_CALLS: usize = 10_000;

#[test]
fn figures_of_building() {
    let figures = [hard::small(), hard::searches(), hard::chains()].concat();
    for figure in figures {
        for search in [over_all_rows, by_value] {
            let built = check(&figure.call, search, &mut Tally::default());
            assert_eq!(built.unwrap().rows, figure.rows, "{:?}", figure.call);
        }
    }
}

fn refused(call: &Call, refusal: u32, place: u32) {
    let result = check(call, by_value, &mut Tally::default());
    assert_eq!(result, Err(Answer { refusal, place }), "{call:?}");
}

/// Each check before the next, with all the later ones broken as well.
#[test]
fn order_of_refusals() {
    let mut call = Call::new(&[45, 0, 3, -6], &[4, 0, 1, 1]);
    check(&call, over_all_rows, &mut Tally::default()).unwrap();
    call.choices[3] = 2;
    refused(&call, 9, 3);
    call.choices[1] = 1;
    refused(&call, 9, 1);
    call.choices[0] = 5;
    refused(&call, 9, 0);
    for (choices, row_table, tap_table) in [
        (3, ROW_TABLE, TAP_TABLE),
        (4, ROW_TABLE - 1, TAP_TABLE),
        (4, ROW_TABLE, TAP_TABLE - 1),
        (0, 0, 0),
    ] {
        let mut short = call.clone();
        short.choices.truncate(choices);
        (short.row_table, short.tap_table) = (row_table, tap_table);
        refused(&short, 3, 0);
        short.coefficients = vec![45; 257];
        refused(&short, 2, 0);
        short.coefficients.clear();
        refused(&short, 1, 0);
    }
}

/// Every choice of some coefficients, and the first few past them.
#[test]
fn every_choice() {
    let mut tally = Tally::default();
    for n in [
        0,
        1,
        -1,
        3,
        11,
        13,
        45,
        180,
        -45,
        1 << 30,
        i32::MAX,
        i32::MIN,
    ] {
        for choice in 0..8 {
            let _ = check(&Call::new(&[n], &[choice]), over_all_rows, &mut tally);
        }
    }
    for choice in (0..1597).step_by(7).chain(1590..1600) {
        let call = Call::new(&[858_993_459], &[choice]);
        let _ = check(&call, over_all_rows, &mut tally);
    }
    println!("accepted {}, refused {:?}", tally.accepted, tally.refusals);
    assert_eq!(tally.accepted, 6 + 2 + 3 + 3 + 3 * 5 + 229 + 7);
}

/// All pairs and triples of small odd parts, in falling order.
#[test]
fn all_small_sets() {
    let mut tally = Tally::default();
    let odd = |most: i32| (1..=most).step_by(2);
    for a in odd(255) {
        for b in odd(a) {
            let call = Call::first_forms(&[a, b]);
            check(&call, over_all_rows, &mut tally).unwrap();
        }
    }
    for a in odd(63) {
        for b in odd(a) {
            for c in odd(b) {
                let call = Call::first_forms(&[a, -b, 2 * c]);
                check(&call, over_all_rows, &mut tally).unwrap();
            }
        }
    }
    println!("{tally:?}");
    assert_eq!(tally.accepted, 128 * 129 / 2 + 32 * 33 * 34 / 6);
}

/// The two literal searches give the same rows.
#[test]
fn small_sets() {
    let mut random = Random::new(20);
    let mut tally = Tally::default();
    for _ in 0..SMALL_SETS {
        let count = 1 + random.below(6);
        let call = mixture::call_of(&mut random, count);
        let built = check(&call, over_all_rows, &mut tally).unwrap();
        let listings = literal::listings(&call);
        let (again, _) = literal::built(&call, &listings, by_value).unwrap();
        assert_eq!(again, built);
    }
    println!("{tally:?}");
    assert_eq!(tally.accepted, SMALL_SETS);
    assert_each_kind(&tally, SMALL_SETS / 200);
}

#[test]
fn medium_sets() {
    let mut random = Random::new(21);
    let mut tally = Tally::default();
    for _ in 0..MEDIUM_SETS {
        let count = 1 + random.below(40);
        let call = mixture::call_of(&mut random, count);
        check(&call, over_all_rows, &mut tally).unwrap();
    }
    println!("{tally:?}");
    assert_each_kind(&tally, MEDIUM_SETS / 20);
}

#[test]
fn large_sets() {
    let mut random = Random::new(22);
    let mut tally = Tally::default();
    for _ in 0..LARGE_SETS {
        let any = random.below(MOST_TAPS);
        let count = random.pick(&[MOST_TAPS, MOST_TAPS - 1, 1 + any]);
        let call = mixture::call_of(&mut random, count);
        check(&call, by_value, &mut tally).unwrap();
    }
    println!("{tally:?}");
    assert_each_kind(&tally, LARGE_SETS / 4);
}

/// Odd parts of weight 16 and of little less, with the first forms and with any.
#[test]
fn heaviest_sets() {
    let mut random = Random::new(23);
    let mut tally = Tally::default();
    for kind in [mixture::heaviest, mixture::heavy] {
        let one = |_| kind(&mut random, &[]);
        let coefficients: Vec<i32> = (0..MOST_TAPS).map(one).collect();
        let choices = mixture::choices(&mut random, &coefficients);
        let first = Call::first_forms(&coefficients);
        for call in [first, Call::new(&coefficients, &choices)] {
            check(&call, by_value, &mut tally).unwrap();
        }
    }
    println!("{tally:?}");
    assert!(tally.most_rows > 2000);
}

/// The sets of the benchmark's sweep, with the first forms and with any.
#[test]
fn sets_with_a_pattern() {
    let mut random = Random::new(25);
    let mut tally = Tally::default();
    for set in sets::families().into_iter().flat_map(|family| family.sets) {
        let choices = mixture::any_choices(&mut random, &set.coefficients);
        let first = Call::first_forms(&set.coefficients);
        for call in [first, Call::new(&set.coefficients, &choices)] {
            check(&call, by_value, &mut tally).unwrap();
        }
    }
    println!("{tally:?}");
    assert_each_kind(&tally, 50);
}

/// The sets by their bound on rows have just that bound.
#[test]
fn bounds_on_rows() {
    for (weight, bound) in bounds::ALL {
        let set = bounds::set(weight, bound);
        let digits = |n: &i32| (canonical(*n).plus | canonical(*n).minus).count_ones() as usize;
        let rows: usize = set.iter().map(|n| digits(n) - 1).sum();
        assert_eq!(1 + rows, bound);
        assert!(set.len() <= MOST_TAPS && set.iter().all(|n| n % 2 == 1));
    }
}

/// Random coefficients of 31 bits: half of them with every right row tried, then all.
#[test]
fn random_coefficients_of_31_bits() {
    let mut random = Random::new(2);
    let mut next = |_| (random.bits() >> 33) as i32;
    let coefficients: Vec<i32> = (0..MOST_TAPS).map(&mut next).collect();
    let rows = |count: usize, search| {
        let call = Call::first_forms(&coefficients[..count]);
        check(&call, search, &mut Tally::default()).unwrap().rows
    };
    assert_eq!(rows(MOST_TAPS / 2, over_all_rows).len(), 1009);
    assert_eq!(rows(MOST_TAPS, by_value).len(), 1929);
}

fn assert_each_kind(tally: &Tally, often: usize) {
    assert!(tally.searched.iter().all(|count| *count > often));
    assert!(tally.existing > often && tally.chains > often && tally.met > often);
    assert!(tally.farthest > often / 10 && tally.large > 0);
}

#[test]
fn damaged_calls() {
    let mut random = Random::new(24);
    let mut tally = Tally::default();
    for _ in 0..DAMAGED_CALLS {
        let any = 1 + random.below(MOST_TAPS);
        let count = random.pick(&[1, 3, 8, 8, 8, 20, any]);
        let call = mixture::damaged_call(&mut random, count);
        let _ = check(&call, by_value, &mut tally);
    }
    println!("{tally:?}");
    let often = DAMAGED_CALLS / 100;
    assert!([1, 2, 3, 9].map(|n| tally.refusals.refused[n] > often) == [true; 4]);
    let pairs = "1-3 2-3 2-9 3-9";
    tally.refusals.assert_pairs(pairs, often / 10);
    assert!(tally.refusals.places[9].len() > 100);
}
