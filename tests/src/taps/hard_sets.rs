//! Sets that are easy to get wrong.

use super::hard::FRACTION_BITS_PAST;
use super::set::Set;

const HUGE: f64 = f64::MAX;
const TINY: f64 = f64::MIN_POSITIVE;
const LEAST: f64 = 5e-324;

/// Both modes; a nonzero number other than 1 is normalised as well.
const MODES: [u32; 5] = [0, 1, 2, 0x100, 0x8000_0000];

/// No taps, 256 taps and more, and tables that are short, exact and longer.
fn lengths(list: &mut Vec<Set>) {
    for count in [0usize, 1, 2, 3, 4, 5, 255, 256, 257, 258, 260, 512, 65_537] {
        let taps: Vec<f64> = (0..count).map(|i| (i % 7) as f64 * 0.01 + 0.001).collect();
        for normalised in MODES {
            let set = Set::new(&taps, 15, normalised);
            for table in [0, count / 2, count.saturating_sub(1), count + 1, count + 9] {
                list.push(set.clone().with_table(table));
            }
            list.push(set);
        }
    }
}

/// A tap that is not finite or out of bounds at each place of a short set, with all else that can
/// be wrong beside it.
fn orders(list: &mut Vec<Set>) {
    let signalling = [0x7ff0_0000_0000_0001, 0xfff0_0000_0000_0001].map(f64::from_bits);
    let bad = [f64::NAN, f64::INFINITY, -f64::INFINITY, 1e300, -1e300];
    let bad: Vec<f64> = bad.into_iter().chain(signalling).collect();
    let fraction_bits = FRACTION_BITS_PAST.iter().copied().chain([0, 31]);
    for fraction_bits in fraction_bits {
        for (normalised, count) in [(0, 3), (1, 3), (0, 257), (1, 257)] {
            for (place, &value) in (0..3).flat_map(|p| bad.iter().map(move |v| (p, v))) {
                let mut taps = vec![0.25; count];
                taps[place] = value;
                taps[2] += value;
                let set = Set::new(&taps, fraction_bits, normalised);
                list.push(set.clone().with_table(2));
                list.push(set);
            }
        }
    }
    for normalised in [0, 1] {
        list.push(Set::new(&[], 32, normalised));
        list.push(Set::new(&[1.0, f64::NAN], 32, normalised).with_table(1));
    }
}

/// The same taps at several F, as they are and normalised.
fn both_modes(list: &mut Vec<Set>, filters: &[&[f64]]) {
    for filter in filters {
        for fraction_bits in [0, 1, 2, 15, 31] {
            list.push(Set::new(filter, fraction_bits, 0));
            list.push(Set::new(filter, fraction_bits, 1));
        }
    }
}

/// Sums that are zero, infinite, subnormal, negative or 1.
fn sums(list: &mut Vec<Set>) {
    let filters: [&[f64]; 19] = [
        &[1.0, 1.0, 1.0, 1.0],
        &[1.0, -1.0],
        &[-1.0, 1.0],
        &[0.1, 0.2, -0.3],
        &[-0.0],
        &[-0.0, -0.0, -0.0],
        &[0.0],
        &[HUGE, HUGE],
        &[HUGE, HUGE, -HUGE, -HUGE],
        &[-HUGE, -HUGE, HUGE],
        &[HUGE, -HUGE, 1.0],
        &[HUGE, 1e291, 1.0],
        &[HUGE],
        &[LEAST],
        &[-LEAST, LEAST],
        &[1.0, -1.0, LEAST],
        &[TINY, TINY, LEAST],
        &[-3.0, 1.0],
        &[0.5, 0.5],
    ];
    both_modes(list, &filters);
}

/// Quotients that are infinite, round to 0 or lie at the ends of the range. The first set is out
/// of bounds at place 0, and infinite at place 1.
fn quotients(list: &mut Vec<Set>) {
    let large = 2f64.powi(600);
    let small = 2f64.powi(-500);
    let middle = 2f64.powi(-460);
    let filters: [&[f64]; 11] = [
        &[middle, large, -large, small],
        &[small, large, -large, small],
        &[large, -large, middle, small],
        &[LEAST, 1.0, -1.0],
        &[LEAST, HUGE],
        &[-LEAST, HUGE, LEAST],
        &[2147483648.0, -2147483647.0],
        &[-2147483648.0, 2147483649.0],
        &[-2147483648.25, 2147483649.25],
        &[2147483647.25, -2147483646.25],
        &[-2147483648.5, 2147483649.5],
    ];
    both_modes(list, &filters);
}

/// Equal leftovers of different sign, larger ones later, and none at all; several halves, with either
/// sign first; each also times 2^-F.
fn leftovers(list: &mut Vec<Set>) {
    let filters: [&[f64]; 18] = [
        &[0.25, -0.25],
        &[-0.25, 0.25],
        &[0.5, -0.5],
        &[-0.5, 0.5],
        &[1.0, 2.25, 3.75, 0.25],
        &[1.0, 3.75, 2.25, -0.25],
        &[1.125, -7.875, 2.25, 1.75, 0.5],
        &[-0.0, 0.0, 7.0],
        &[0.0, -0.0, 0.125, -0.125, 1.0],
        &[LEAST, -LEAST],
        &[-LEAST, LEAST, 3.0],
        &[0.49999999999999994, -0.49999999999999994, 4.0],
        &[0.25, 2.5, 1.5, -0.5],
        &[0.25, 1.5, 2.5, -0.5],
        &[3.0, -1.5, -2.5, 0.5, 7.5],
        &[3.0, -2.5, -1.5, 0.5, 7.5],
        &[1.5, 3.5, 5.5, -0.5, -4.5],
        &[0.49999999999999994, 0.5, 1.5],
    ];
    for filter in filters {
        for fraction_bits in 0..=31u32 {
            let unit = (1u64 << fraction_bits) as f64;
            let scaled: Vec<f64> = filter.iter().map(|tap| tap / unit).collect();
            list.push(Set::new(&scaled, fraction_bits, 0));
            list.push(Set::new(filter, fraction_bits, 0));
            list.push(Set::new(filter, fraction_bits, 1));
        }
    }
}

/// One tap spoiled at each place of the longest set.
fn places(list: &mut Vec<Set>) {
    for place in 0..256 {
        for value in [f64::NAN, -f64::INFINITY, 65536.0, 1e308, -65536.0] {
            for normalised in [0, 1] {
                let mut taps = vec![0.01; 256];
                taps[place] = value;
                list.push(Set::new(&taps, 15, normalised));
            }
        }
    }
}

pub fn sets() -> Vec<Set> {
    let mut list = Vec::new();
    lengths(&mut list);
    orders(&mut list);
    sums(&mut list);
    quotients(&mut list);
    leftovers(&mut list);
    places(&mut list);
    list
}
