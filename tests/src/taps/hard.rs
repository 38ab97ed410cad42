//! Single taps that are easy to get wrong.

/// One tap's bits, and fraction bits.
pub type TapCase = (u64, u32);

/// Fraction bits past their bound.
pub const FRACTION_BITS_PAST: [u32; 7] = [32, 33, 63, 64, 256, 1 << 31, u32::MAX];

/// Numbers that matter at any scale.
fn odd_numbers() -> Vec<u64> {
    let mut list = vec![
        0,                     // +0
        1,                     // the least above 0
        0x000f_ffff_ffff_ffff, // the largest subnormal
        0x0010_0000_0000_0000, // the least normal
        0x0008_0000_0000_0000, // a subnormal with one bit
        0x7fef_ffff_ffff_ffff, // the largest finite
        0x7fe0_0000_0000_0000, // 2^1023
        0x7ff0_0000_0000_0000, // infinity
        0x7ff8_0000_0000_0000, // not-a-number, quiet
        0x7ff0_0000_0000_0001, // signalling
        0x7ff4_0000_dead_beef, // signalling, with a payload
        0x7ff8_0000_0000_0001, // quiet, with a payload
        0x7fff_ffff_ffff_ffff, // all ones
    ];
    list.push(0.49999999999999994f64.to_bits());
    let negative: Vec<u64> = list.iter().map(|bits| bits | 1 << 63).collect();
    list.extend(negative);
    list
}

/// Values of tap × 2^F: halves, whole numbers and both ends of the range.
fn scaled_values() -> Vec<f64> {
    let two31 = 2147483648.0;
    let mut list = vec![0.25, 0.5, 0.75, 1.0, 1.5, 2.0, 2.5, 3.5, 1023.5, 1048576.5];
    list.extend([1073741823.5, 1073741824.0, 1073741824.5]);
    for less in [2.0, 1.75, 1.5, 1.25, 1.0, 0.75, 0.5, 0.25, 0.0] {
        list.extend([two31 - less, two31 + less]);
    }
    list.extend([2.0 * two31, 4.0 * two31, 2.0 * two31 - 0.5]);
    // Past 32 and 63 bits, where a cast that only drops the upper bits would come back in bounds.
    list.extend([2f64.powi(32) + 1.0, 2f64.powi(52) + 1.0, 2f64.powi(53)]);
    list.extend([2f64.powi(62), 2f64.powi(63), 2f64.powi(64), 2f64.powi(96)]);
    let negative: Vec<f64> = list.iter().map(|value| -value).collect();
    list.extend(negative);
    list
}

/// The bits below, at and above.
pub fn with_neighbours(bits: u64) -> [u64; 3] {
    [bits - 1, bits, bits + 1]
}

/// Whole parts of halves: small ones, and those beside every power of two up to 2^32.
pub fn whole_parts() -> Vec<i64> {
    let mut list: Vec<i64> = (0..40).collect();
    for power in 5..=32 {
        list.extend((1i64 << power) - 4..(1 << power) + 4);
    }
    list
}

fn scaled_cases(list: &mut Vec<TapCase>) {
    for fraction_bits in 0..=31u32 {
        for value in scaled_values() {
            let tap = value / (1u64 << fraction_bits) as f64;
            list.extend(with_neighbours(tap.to_bits()).map(|bits| (bits, fraction_bits)));
        }
    }
}

/// Every power of two and its neighbours, of both signs, at the ends of F and in the middle.
fn power_cases(list: &mut Vec<TapCase>) {
    for field in 1..0x7ffu64 {
        for bits in with_neighbours(field << 52) {
            for fraction_bits in [0, 1, 15, 30, 31] {
                list.push((bits, fraction_bits));
                list.push((bits | 1 << 63, fraction_bits));
            }
        }
    }
}

pub fn taps() -> Vec<TapCase> {
    let mut list = Vec::new();
    for bits in odd_numbers() {
        list.extend((0..=31).map(|fraction_bits| (bits, fraction_bits)));
        list.extend(FRACTION_BITS_PAST.map(|fraction_bits| (bits, fraction_bits)));
    }
    scaled_cases(&mut list);
    power_cases(&mut list);
    for value in scaled_values() {
        list.extend(FRACTION_BITS_PAST.map(|fraction_bits| (value.to_bits(), fraction_bits)));
    }
    list
}
