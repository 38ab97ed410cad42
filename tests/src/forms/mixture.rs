//! Random coefficients and masks.

use super::Form;
use crate::random::Random;

/// A few bits, of both signs.
fn sparse(random: &mut Random) -> i64 {
    let bits = random.from_to(0, 6);
    let bit = |random: &mut Random| random.sign() as i64 * (1 << random.from_to(0, 31));
    (0..bits).map(|_| bit(random)).sum()
}

/// Digits two apart, and now and then further.
fn dense(random: &mut Random) -> i64 {
    let gap = random.pick(&[4, 8, 16, 64]);
    let equal = random.pick(&[2, 3, 6, 20]);
    let (mut value, mut sign) = (0i64, random.sign() as i64);
    let mut place = random.from_to(0, 3);
    while place < 32 {
        value += sign << place;
        place += 2;
        if random.one_in(gap) {
            place += random.from_to(1, 4);
        }
        if !random.one_in(equal) {
            sign = -sign;
        }
    }
    value
}

/// Short stretches of bits one after the other.
fn chunks(random: &mut Random) -> i64 {
    let chunk = random.pick(&[0b0011u32, 0b0101, 0b1011, 0b1101, 0b0110_1101]);
    let bits = (0..4).fold(0, |bits, _| bits << 8 | chunk << random.below(4));
    (bits ^ (random.bits() & random.bits() & random.bits()) as u32) as i32 as i64
}

pub fn uniform(random: &mut Random) -> i32 {
    random.bits() as i32
}

/// Few digits, or many near to each other.
pub fn uneven(random: &mut Random) -> i32 {
    loop {
        let value = match random.below(4) {
            0 => sparse(random),
            1 => chunks(random),
            _ => dense(random),
        };
        if let Ok(n) = i32::try_from(value) {
            return n;
        }
    }
}

/// Each digit is 0 in one of two cases, else 1 or -1.
pub fn form(random: &mut Random) -> Form {
    let any = random.bits();
    let (plus, minus) = (any as u32, (any >> 32) as u32);
    Form {
        plus: plus & !minus,
        minus: minus & !plus,
    }
}

/// Two masks: in one of three cases no place is in both, else one or more from some place on.
pub fn masks(random: &mut Random) -> Form {
    let thin = random.pick(&[u64::MAX, 0x1111_1111_1111_1111, 0xff]);
    let any = random.bits() & thin.rotate_left(random.below(64) as u32);
    let (plus, any) = (any as u32, (any >> 32) as u32);
    let place = random.below(32) as u32;
    let above = u32::MAX << place;
    let both = match random.below(3) {
        0 => 0,
        1 => 1 << place,
        _ => 1 << place | random.bits() as u32 & above,
    };
    Form {
        plus: plus | both,
        minus: any & !plus | both,
    }
}
