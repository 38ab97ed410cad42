//! What the program prints, as the paper states it: literal rounding, literal building and the text.

use super::input::Input;
use super::text;
use crate::answer::Answer;
use crate::building::call::Call;
use crate::building::literal::{built, listings};
use crate::building::search::{by_value, over_all_rows};
use crate::taps::literal::{tap, Tap};

const FRACTION_BITS: u32 = 15;
/// Up to so many taps every right row is tried; with more they are looked up by value.
const FEW_TAPS: usize = 12;

/// F, or none where the argument is anything but the digits of a decimal number up to 31.
pub fn fraction_bits(argument: Option<&[u8]>) -> Option<u32> {
    let Some(text) = argument else {
        return Some(FRACTION_BITS);
    };
    if text.is_empty() || text.iter().any(|byte| !byte.is_ascii_digit()) {
        return None;
    }
    let value = text.iter().fold(0u32, |value, digit| {
        value
            .saturating_mul(10)
            .saturating_add((digit - b'0') as u32)
    });
    (value <= 31).then_some(value)
}

/// The whole taps, by their bits, and the bytes of a piece after them.
fn taps(bytes: &[u8]) -> (Vec<u64>, usize) {
    let whole = bytes.chunks_exact(8);
    let piece = whole.remainder().len();
    let bits = |tap: &[u8]| u64::from_le_bytes(tap.try_into().unwrap());
    (whole.map(bits).collect(), piece)
}

/// Every refusal that applies, down the table, each with its lowest place. The first is returned.
pub fn refusals(input: &Input) -> Vec<Answer> {
    let (taps, piece) = taps(&input.bytes);
    let fraction_bits = fraction_bits(input.argument.as_deref());
    let when = |applies: bool| applies.then_some(0);
    let turned_down = |number: u32, fraction_bits: u32| {
        let refused = |bits: &u64| tap(*bits, fraction_bits) == Tap::Refused(number);
        taps.iter().position(refused)
    };
    let table = [
        (1, when(taps.is_empty())),
        (2, when(taps.len() > 256)),
        (12, when(piece > 0)),
        (4, when(fraction_bits.is_none())),
        (5, turned_down(5, 0)),
        (6, fraction_bits.and_then(|bits| turned_down(6, bits))),
    ];
    let refusal = |(refusal, place): (u32, Option<usize>)| {
        let place = place? as u32;
        Some(Answer { refusal, place })
    };
    table.into_iter().filter_map(refusal).collect()
}

/// The coefficients, or the refusal.
pub fn coefficients(input: &Input) -> Result<Vec<i32>, Answer> {
    if let Some(refusal) = refusals(input).first() {
        return Err(*refusal);
    }
    let fraction_bits = fraction_bits(input.argument.as_deref()).unwrap();
    let coefficient = |bits: u64| match tap(bits, fraction_bits) {
        Tap::Exact(number) | Tap::Rounded(number, _) => number,
        Tap::Refused(_) => unreachable!(),
    };
    Ok(taps(&input.bytes).0.into_iter().map(coefficient).collect())
}

/// The bytes that the program prints.
pub fn sheet(input: &Input) -> Vec<u8> {
    let text = match coefficients(input) {
        Err(refusal) => text::refused(refusal),
        Ok(coefficients) => {
            let few = coefficients.len() <= FEW_TAPS;
            let search = if few { over_all_rows } else { by_value };
            let call = Call::first_forms(&coefficients);
            let (network, _) = built(&call, &listings(&call), search).unwrap();
            text::built(&network, &coefficients)
        }
    };
    text.into_bytes()
}
