//! The 64 bits of a binary64 number, taken apart and put together in whole numbers.

pub const SIGN: u64 = 1 << 63;
const FRACTION: u64 = (1 << 52) - 1;

/// A finite number: its magnitude is mantissa × 2^exponent, the mantissa below 2^53.
#[derive(Clone, Copy, Debug, PartialEq, Eq)]
pub struct Parts {
    pub negative: bool,
    pub mantissa: u64,
    pub exponent: i64,
}

/// None for an infinity or not-a-number.
pub fn take_apart(bits: u64) -> Option<Parts> {
    let field = (bits & !SIGN) >> 52;
    let fraction = bits & FRACTION;
    let (mantissa, exponent) = match field {
        0x7ff => return None,
        0 => (fraction, -1074),
        _ => (fraction | 1 << 52, field as i64 - 1075),
    };
    Some(Parts {
        negative: bits & SIGN != 0,
        mantissa,
        exponent,
    })
}

/// The bits of a number that binary64 holds exactly; the mantissa is below 2^53 and the exponent
/// from -1074 to 0.
pub fn put_together(parts: Parts) -> u64 {
    assert!(parts.mantissa < 1 << 53 && (-1074..=0).contains(&parts.exponent));
    let sign = if parts.negative { SIGN } else { 0 };
    if parts.mantissa == 0 {
        return sign;
    }
    // Up to a mantissa of 53 bits, but never below the least exponent.
    let room = (parts.mantissa.leading_zeros() - 11) as i64;
    let up = room.min(parts.exponent + 1074);
    let mantissa = parts.mantissa << up;
    let exponent = parts.exponent - up;
    if mantissa < 1 << 52 {
        sign | mantissa
    } else {
        sign | ((exponent + 1075) as u64) << 52 | mantissa & FRACTION
    }
}

pub fn is_finite(number: f64) -> bool {
    take_apart(number.to_bits()).is_some()
}
