//! Reduction and trimming as the paper states them. Slow on purpose.

use super::Reduced;
use std::ops::Range;

/// By trial: the only sign and shift that leave an odd part.
pub fn reduce(n: i32) -> Reduced {
    for (negative, sign) in [(0, 1), (1, -1)] {
        for shift in 0..=31 {
            let unit = sign * (1i64 << shift);
            let part = n as i64 / unit;
            if part > 0 && part % 2 == 1 && part * unit == n as i64 {
                return Reduced {
                    negative,
                    odd_part: part as u32,
                    shift,
                };
            }
        }
    }
    assert_eq!(n, 0);
    Reduced {
        negative: 0,
        odd_part: 0,
        shift: 0,
    }
}

/// The stretch from the first nonzero to the last; the empty one at the start where there is none.
pub fn trimmed(coefficients: &[i32]) -> Range<usize> {
    let nonzero = |n: &i32| *n != 0;
    match coefficients.iter().position(nonzero) {
        None => 0..0,
        Some(first) => first..1 + coefficients.iter().rposition(nonzero).unwrap(),
    }
}
