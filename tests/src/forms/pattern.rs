//! Coefficients that are easy to get wrong, or have many forms.

use std::collections::BTreeSet;

/// Both ends of the range, with their neighbours.
pub fn extremes() -> Vec<i32> {
    let near = 0..=256;
    let (low, high) = (near.clone(), near);
    let low = low.map(|more| i32::MIN + more);
    low.chain(high.map(|less| i32::MAX - less)).collect()
}

/// Powers of two and thirds of them, which have their digits as near to each other as can be, with
/// their neighbours and of both signs.
pub fn powers() -> Vec<i32> {
    let mut list = BTreeSet::new();
    for place in 0..=32 {
        for middle in [1i64 << place, (1 << place) / 3, (1 << place) * 2 / 3] {
            for near in middle - 3..=middle + 3 {
                list.extend(i32::try_from(near));
                list.extend(i32::try_from(-near));
            }
        }
    }
    list.into_iter().collect()
}

/// The pattern with its low or its high bits cut off.
fn truncations(pattern: u32) -> Vec<u32> {
    let low = (0..32).map(|cut| pattern >> cut);
    low.chain((0..32).map(|cut| pattern << cut >> cut))
        .collect()
}

/// All shifts of the patterns 0x33333333 and 0x55555555 and of their truncations, of both signs: as
/// magnitudes where they are within the bounds, and as 32 bits, past the top of which all is lost.
pub fn patterns() -> Vec<i32> {
    let mut list = BTreeSet::new();
    for pattern in [0x3333_3333, 0x5555_5555] {
        for truncated in truncations(pattern) {
            for shift in 0..32 {
                let magnitude = (truncated as i64) << shift;
                list.extend(i32::try_from(magnitude));
                list.extend(i32::try_from(-magnitude));
                let wrapped = (truncated << shift) as i32;
                list.extend([wrapped, wrapped.wrapping_neg()]);
            }
        }
    }
    list.into_iter().collect()
}
