//! Random sets of coefficients and choices, and calls that are turned down.

use super::call::Call;
use crate::forms::fast::form_count;
use crate::forms::mixture::{uneven, uniform};
use crate::network::{MOST_TAPS, ROW_TABLE, TAP_TABLE};
use crate::random::Random;

type Kind = fn(&mut Random, &[i32]) -> i32;

fn any(random: &mut Random, _: &[i32]) -> i32 {
    uniform(random)
}

fn few_or_dense(random: &mut Random, _: &[i32]) -> i32 {
    uneven(random)
}

/// Up to so many bits, of both signs.
fn up_to<const BITS: u32>(random: &mut Random, _: &[i32]) -> i32 {
    random.from_to(-(1 << BITS), 1 << BITS) as i32
}

fn zero(_: &mut Random, _: &[i32]) -> i32 {
    0
}

fn power(random: &mut Random, _: &[i32]) -> i32 {
    (1u32 << random.below(32)) as i32 * random.pick(&[1, -1])
}

/// Both ends of the range, and near to them.
fn end_of_range(random: &mut Random, _: &[i32]) -> i32 {
    let near = random.pick(&[0, 0, 0, 1, 2, 5, 100]);
    let near = random.from_to(0, near) as i32;
    random.pick(&[i32::MIN + near, i32::MAX - near])
}

/// Digits at all even places: an odd part of weight 16.
pub fn heaviest(random: &mut Random, _: &[i32]) -> i32 {
    let digit = |random: &mut Random| random.sign() as i32;
    let low: i32 = (0..15).map(|i| digit(random) << (2 * i)).sum();
    digit(random) * ((1 << 30) + low)
}

/// Digits two or three places apart. Such sets share few chains and get many rows.
pub fn heavy(random: &mut Random, _: &[i32]) -> i32 {
    let (mut value, mut place) = (1i32 << 30, 30);
    while place >= 3 {
        place -= random.pick(&[2, 2, 3]);
        value += random.pick(&[1, -1]) << place;
    }
    value * random.pick(&[1, -1])
}

/// The odd part of an earlier one again, with another sign and shift.
fn again(random: &mut Random, earlier: &[i32]) -> i32 {
    let earlier = some(random, earlier).unsigned_abs();
    let odd_part = earlier >> (earlier.trailing_zeros() & 31);
    let room = odd_part.leading_zeros().max(1) as usize;
    ((odd_part << random.below(room)) as i32).wrapping_mul(random.pick(&[1, -1]))
}

/// A multiple by a power of two of an earlier one, with another one added.
fn near_pair(random: &mut Random, earlier: &[i32]) -> i32 {
    let (a, b) = (some(random, earlier), some(random, earlier));
    let sum = ((a as i64) << random.below(12)) + b as i64 * random.sign() as i64;
    i32::try_from(sum).unwrap_or(a)
}

/// Past 2^31 an earlier one's multiple, and below it again with another one taken away; or what
/// such a pair needs.
fn past_the_top(random: &mut Random, earlier: &[i32]) -> i32 {
    let (a, b) = (some(random, earlier), some(random, earlier));
    let a = random.pick(&[3, 3, 5, a.unsigned_abs().max(1)]);
    let multiple = (a as i64) << (a.leading_zeros() & 31);
    match (random.below(3), i32::try_from(multiple - b as i64)) {
        (0, _) => a as i32,
        (1, Ok(rest)) => rest,
        _ => (1 << 30) + random.pick(&[1, 3, 5, 9, 33, 1 << 20]),
    }
}

fn some(random: &mut Random, earlier: &[i32]) -> i32 {
    if earlier.is_empty() {
        return 1;
    }
    random.pick(earlier)
}

const KINDS: [Kind; 16] = [
    any,
    any,
    few_or_dense,
    few_or_dense,
    up_to::<5>,
    up_to::<9>,
    up_to::<16>,
    zero,
    power,
    end_of_range,
    heaviest,
    heavy,
    again,
    again,
    near_pair,
    past_the_top,
];

/// So many coefficients: all of one kind, of two, or of any.
pub fn coefficients(random: &mut Random, count: usize) -> Vec<i32> {
    let one = random.pick(&KINDS);
    let two = [one, random.pick(&KINDS)];
    let mix = random.below(4);
    let mut list = Vec::new();
    for _ in 0..count {
        let kind = match mix {
            0 => one,
            1 => random.pick(&two),
            _ => random.pick(&KINDS),
        };
        let next = kind(random, &list);
        list.push(next);
    }
    list
}

/// The number of forms of a coefficient and of its odd part alike.
fn forms(coefficient: i32) -> u32 {
    let mut count = 0;
    form_count(coefficient, &mut count);
    count
}

/// Any form of each coefficient.
pub fn any_choices(random: &mut Random, coefficients: &[i32]) -> Vec<u32> {
    let any = |coefficient: &i32| random.below(forms(*coefficient) as usize) as u32;
    coefficients.iter().map(any).collect()
}

/// One choice a coefficient: all the first form, all the last, or any.
pub fn choices(random: &mut Random, coefficients: &[i32]) -> Vec<u32> {
    match random.below(5) {
        0 => vec![0; coefficients.len()],
        1 => coefficients.iter().map(|n| forms(*n) - 1).collect(),
        _ => any_choices(random, coefficients),
    }
}

/// A call with so many coefficients that is accepted; now and then more is lent than asked for.
pub fn call_of(random: &mut Random, count: usize) -> Call {
    let coefficients = coefficients(random, count);
    let choices = choices(random, &coefficients);
    let mut call = Call::new(&coefficients, &choices);
    for _ in 0..random.pick(&[0, 0, 1, 40]) {
        call.choices.push(random.bits() as u32);
    }
    call.row_table += random.pick(&[0, 0, 1, 5, 300]);
    call.tap_table += random.pick(&[0, 0, 1, 3, 300]);
    call
}

/// Choices that are not below the number of forms.
fn choice_past(random: &mut Random, call: &mut Call) {
    let taps = call.coefficients.len().min(call.choices.len());
    for _ in 0..1 + random.below(3) {
        if taps != 0 {
            let any = random.below(taps);
            let tap = random.pick(&[0, taps - 1, any, any]);
            let forms = forms(call.coefficients[tap]);
            call.choices[tap] = random.pick(&[forms, forms, forms + 1, 1597, 1 << 31, u32::MAX]);
        }
    }
}

fn count_past(random: &mut Random, call: &mut Call) {
    if random.one_in(2) {
        call.coefficients.clear();
    } else {
        let count = random.pick(&[MOST_TAPS + 1, MOST_TAPS + 1, MOST_TAPS + 50, 512]);
        call.coefficients.resize(count, 3);
    }
}

fn table_short(random: &mut Random, call: &mut Call) {
    match random.below(3) {
        0 => {
            let count = call.coefficients.len();
            let part = random.below(count.max(1));
            let left = random.pick(&[0, count.saturating_sub(1), part]);
            call.choices.truncate(left);
        }
        1 => call.row_table = random.pick(&[0, 5, ROW_TABLE - 5, ROW_TABLE - 1]),
        _ => call.tap_table = random.pick(&[0, 3, TAP_TABLE - 3, TAP_TABLE - 1]),
    }
}

/// A call with one thing or several that are not right, or may not be.
pub fn damaged_call(random: &mut Random, count: usize) -> Call {
    let mut call = call_of(random, count);
    let several = random.below(8);
    let which = random.pick(&[1, 1, 2, 4, several]);
    if which & 1 != 0 {
        choice_past(random, &mut call);
    }
    if which & 2 != 0 {
        count_past(random, &mut call);
    }
    if which & 4 != 0 {
        table_short(random, &mut call);
    }
    call
}
