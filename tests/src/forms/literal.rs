//! The rules for forms as the paper states them, digit by digit. The least weight comes from the
//! lowest digit: an even value ends in 0, an odd one in 1 or -1, and half of the rest is left. All
//! strings of that weight are gathered, in whatever order, and then sorted. Slow on purpose.

use super::Form;
use std::cmp::Ordering;
use std::collections::HashMap;

/// 32 digits 1, 0 and -1, place 0 lowest.
pub type Digits = [i8; 32];

/// The digits that two masks stand for, or the lowest place that is in both.
pub fn digits(form: Form) -> Result<Digits, u32> {
    let mut digits = [0; 32];
    for (place, digit) in digits.iter_mut().enumerate() {
        let holds = |mask: u32| mask >> place & 1 == 1;
        *digit = match (holds(form.plus), holds(form.minus)) {
            (true, true) => return Err(place as u32),
            (true, false) => 1,
            (false, true) => -1,
            (false, false) => 0,
        };
    }
    Ok(digits)
}

pub fn masks(digits: &Digits) -> Form {
    let mask = |wanted: i8| {
        let places = (0..32).filter(|place| digits[*place as usize] == wanted);
        places.map(|place| 1u32 << place).sum()
    };
    Form {
        plus: mask(1),
        minus: mask(-1),
    }
}

pub fn value(digits: &Digits) -> i64 {
    let worth = |(place, digit): (usize, &i8)| *digit as i64 * (1i64 << place);
    digits.iter().enumerate().map(worth).sum()
}

pub fn weight(digits: &Digits) -> u32 {
    digits.iter().filter(|digit| **digit != 0).count() as u32
}

/// The form without neighbouring nonzero digits: an odd rest takes the digit that leaves a multiple
/// of 4.
pub fn canonical(n: i32) -> Form {
    let mut digits = [0; 32];
    let mut rest = n as i64;
    let mut place = 0;
    while rest != 0 {
        if rest % 2 != 0 {
            digits[place] = if (rest - 1) % 4 == 0 { 1 } else { -1 };
            rest -= digits[place] as i64;
        }
        rest /= 2;
        place += 1;
    }
    masks(&digits)
}

/// The earlier one is nonzero at the highest place where they differ.
pub fn order(a: &Digits, b: &Digits) -> Ordering {
    for place in (0..32).rev() {
        if a[place] != b[place] {
            assert!(a[place] == 0 || b[place] == 0, "1 and -1 at place {place}");
            return (a[place] == 0).cmp(&(b[place] == 0));
        }
    }
    Ordering::Equal
}

/// Least weights worked out so far, of odd values.
#[derive(Default)]
struct Weights(HashMap<i64, u32>);

impl Weights {
    /// The least weight of a string of this value, of any length.
    fn least(&mut self, value: i64) -> u32 {
        if (-1..=1).contains(&value) {
            return value.unsigned_abs() as u32;
        }
        if value % 2 == 0 {
            return self.least(value / 2);
        }
        if let Some(weight) = self.0.get(&value) {
            return *weight;
        }
        let rests = [(value - 1) / 2, (value + 1) / 2];
        let weight = 1 + rests
            .map(|rest| self.least(rest))
            .into_iter()
            .min()
            .unwrap();
        self.0.insert(value, weight);
        weight
    }

    /// All strings of least weight whose digits from `place` on have this value. A digit at place
    /// 32 would be out of bounds here.
    fn gather(&mut self, value: i64, place: usize, digits: &mut Digits, list: &mut Vec<Digits>) {
        if value == 0 {
            list.push(*digits);
        } else if value % 2 == 0 {
            self.gather(value / 2, place + 1, digits, list);
        } else {
            for digit in [1, -1] {
                let rest = (value - digit as i64) / 2;
                if 1 + self.least(rest) == self.least(value) {
                    digits[place] = digit;
                    self.gather(rest, place + 1, digits, list);
                    digits[place] = 0;
                }
            }
        }
    }
}

pub fn minimal_strings(n: i32) -> Vec<Digits> {
    let mut list = Vec::new();
    Weights::default().gather(n as i64, 0, &mut [0; 32], &mut list);
    list.sort_by(order);
    list
}

pub fn minimal_forms(n: i32) -> Vec<Form> {
    minimal_strings(n).iter().map(masks).collect()
}
