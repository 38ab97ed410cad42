//! The core's reduction and trimming against the literal ones.

use fir_tests::answer::ACCEPTED;
use fir_tests::coefficients::{core, literal, mixture, Reduced};
use fir_tests::random::Random;
use std::ops::Range;

const RANDOM_COEFFICIENTS: usize = 2_000_000;
const RANDOM_FILTERS: usize = 200_000;
const BEFORE: Reduced = Reduced {
    negative: 0x5a5a_0001,
    odd_part: 0x5a5a_0002,
    shift: 0x5a5a_0003,
};

fn check_reduced(n: i32) -> Reduced {
    let mut reduced = BEFORE;
    assert_eq!(core::reduce(n, &mut reduced), ACCEPTED, "{n}");
    assert_eq!(reduced, literal::reduce(n), "{n}");
    reduced
}

fn figure(n: i32, negative: u32, odd_part: u32, shift: u32) {
    let wanted = Reduced {
        negative,
        odd_part,
        shift,
    };
    assert_eq!(check_reduced(n), wanted, "{n}");
}

#[test]
fn reduction() {
    figure(0, 0, 0, 0);
    figure(1, 0, 1, 0);
    figure(-1, 1, 1, 0);
    figure(180, 0, 45, 2);
    figure(-180, 1, 45, 2);
    figure(i32::MIN, 1, 1, 31);
    figure(i32::MAX, 0, 0x7fff_ffff, 0);
    figure(i32::MIN + 1, 1, 0x7fff_ffff, 0);
    for n in -0xffff..=0xffff {
        check_reduced(n);
    }
    let mut random = Random::new(7);
    let mut shifts = [0; 32];
    for _ in 0..RANDOM_COEFFICIENTS {
        let n = (random.bits() as i32) << random.below(32);
        shifts[check_reduced(n).shift as usize] += 1;
    }
    println!("shifts {shifts:?}");
    assert!(shifts
        .iter()
        .all(|often| *often > RANDOM_COEFFICIENTS / 200));
}

fn check_trimmed(filter: &[i32]) -> Range<usize> {
    let lent = filter.to_vec();
    let mut stretch = 0x5a5a_0001..0x5a5a_0002;
    assert_eq!(core::trimmed(&lent, &mut stretch), ACCEPTED, "{filter:?}");
    assert_eq!(stretch, literal::trimmed(filter), "{filter:?}");
    assert_eq!(lent, filter);
    stretch
}

#[test]
fn trimming() {
    assert_eq!(check_trimmed(&[]), 0..0);
    assert_eq!(check_trimmed(&[0]), 0..0);
    assert_eq!(check_trimmed(&[7]), 0..1);
    assert_eq!(check_trimmed(&[i32::MIN]), 0..1);
    assert_eq!(check_trimmed(&[0, 5, 0, 7, 0, 0]), 1..4);
    for length in [1usize, 2, 255, 256, 257, 1000, 65_537] {
        let mut filter = vec![0; length];
        assert_eq!(check_trimmed(&filter), 0..0);
        for place in [0, length / 2, length - 1] {
            filter[place] = 1 << (place % 32);
            assert_eq!(check_trimmed(&filter), place..place + 1);
            filter[place] = 0;
        }
        filter.fill(-1);
        assert_eq!(check_trimmed(&filter), 0..length);
    }
}

#[test]
fn trimming_at_random() {
    let mut random = Random::new(8);
    let [mut empty, mut whole, mut both_cut, mut single] = [0; 4];
    for _ in 0..RANDOM_FILTERS {
        let filter = mixture::filter(&mut random);
        let Range { start, end } = check_trimmed(&filter);
        empty += (start == end && !filter.is_empty()) as usize;
        whole += (start == 0 && end == filter.len()) as usize;
        both_cut += (0 < start && start < end && end < filter.len()) as usize;
        single += (start + 1 == end) as usize;
    }
    println!("empty {empty}, whole {whole}, cut at both ends {both_cut}, single {single}");
    let often = RANDOM_FILTERS / 100;
    assert!(empty > often && whole > often && both_cut > often && single > often);
}
