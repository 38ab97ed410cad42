//! Random filters, as coefficients.

use crate::random::Random;

fn coefficient(random: &mut Random) -> i32 {
    match random.below(6) {
        0 => 0,
        1 => random.pick(&[i32::MIN, i32::MAX, 1, -1]),
        2 => 1 << random.below(32),
        _ => random.bits() as i32,
    }
}

/// Zeros, coefficients, zeros; any of the three may be missing.
pub fn filter(random: &mut Random) -> Vec<i32> {
    let most = random.pick(&[0, 1, 4, 40, 300]);
    let mut stretch = |zeros: bool| -> Vec<i32> {
        let length = random.below(most + 1);
        let mut one = |_| if zeros { 0 } else { coefficient(random) };
        (0..length).map(&mut one).collect()
    };
    let parts = [stretch(true), stretch(false), stretch(true)];
    parts.concat()
}
