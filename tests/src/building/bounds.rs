//! Sets by the bound on their rows: 1, and for each odd part its weight less one.

use crate::random::Random;

/// Digits stand at places up to this one.
const HIGHEST: usize = 30;

/// Weights with bounds at which something may change, and the largest of all.
pub const ALL: [(usize, usize); 9] = [
    (3, 64),
    (3, 65),
    (3, 512),
    (3, 513),
    (16, 64),
    (16, 65),
    (16, 512),
    (16, 513),
    (16, 3841),
];

/// An odd number of this weight, at most 16: its canonical form has the lowest digit at place 0, the
/// others two places or more apart, and the highest is 1. With weight 16 all even places hold one.
fn odd_part(random: &mut Random, weight: usize) -> i32 {
    let mut slack = HIGHEST - 2 * (weight - 1);
    let (mut value, mut place) = (0, 0);
    for _ in 1..weight {
        value += random.pick(&[1, -1]) << place;
        let gap = 2 + random.below(slack + 1);
        slack -= gap - 2;
        place += gap;
    }
    value + (1 << place)
}

/// Distinct odd parts of this weight, and the last one of less, where that is needed to reach the
/// bound.
pub fn set(weight: usize, bound: usize) -> Vec<i32> {
    let mut random = Random::new((weight + bound) as u64);
    let mut set = Vec::new();
    let mut left = bound - 1;
    while left != 0 {
        let next = odd_part(&mut random, weight.min(left + 1));
        if !set.contains(&next) {
            set.push(next);
            left -= weight.min(left + 1) - 1;
        }
    }
    set
}
