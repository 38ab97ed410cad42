//! Small random changes of an input and its argument.

use super::input::{packed, Input};
use super::mixture::BAD_ARGUMENTS;
use crate::random::Random;

/// Bits of taps at the edges of binary64 and of the range.
const TAPS: [u64; 14] = [
    0,
    1 << 63,
    1,
    0x000f_ffff_ffff_ffff,
    0x0010_0000_0000_0000,
    0x3fdf_ffff_ffff_ffff,
    0x3fe0_0000_0000_0000,
    0x3ff0_0000_0000_0000,
    0x41df_ffff_ffc0_0000,
    0x41df_ffff_ffe0_0000,
    0xc1e0_0000_0010_0000,
    0x7fef_ffff_ffff_ffff,
    0x7ff0_0000_0000_0000,
    0x7ff8_0000_0000_0000,
];

/// What the changes start from.
pub fn starts() -> Vec<Input> {
    let over = |numbers: &[i32]| numbers.iter().map(|n| *n as f64 / 32768.0).collect();
    let example: Vec<f64> = over(&[3, -6, 45, 0]);
    let smoother: Vec<f64> = over(&[1, -9, 64, 117, 64, -9, 1]);
    vec![
        Input::without_argument(&example),
        Input::new(&example, "15"),
        Input::new(&smoother, "0015"),
        Input::new(&[858993459.0, -1431655765.0, 1.0], "0"),
        Input::new(&[-1.0, 0.5, 0.1], "31"),
        Input::new(&[0.0; 30], "7"),
        Input::new(&[0.125; 256], "15"),
        Input::new(&[], "15"),
    ]
}

fn change_bytes(random: &mut Random, bytes: &mut Vec<u8>) {
    let place = random.below(bytes.len() + 1);
    let end = place + random.below(bytes.len() - place + 1).min(24);
    match random.below(6) {
        0 => bytes.truncate(place),
        1 => drop(bytes.drain(place..end)),
        2 => {
            let again = bytes[place..end].to_vec();
            bytes.splice(place..place, again);
        }
        3 => bytes.insert(place, random.bits() as u8),
        4 if place < bytes.len() => bytes[place] = random.bits() as u8,
        _ if place < bytes.len() => bytes[place] ^= 1 << random.below(8),
        _ => bytes.push(random.bits() as u8),
    }
}

/// A tap becomes another, comes in, goes out or is repeated.
fn change_taps(random: &mut Random, bytes: &mut Vec<u8>) {
    let tap = match random.below(3) {
        0 => random.pick(&TAPS).to_le_bytes().to_vec(),
        1 => packed(&[random.from_to(-40_000, 40_000) as f64 / 32768.0]),
        _ => packed(&[random.unit()]),
    };
    let start = 8 * random.below(bytes.len() / 8 + 1);
    let end = bytes.len().min(start + 8);
    match random.below(8) {
        0 => drop(bytes.drain(start..end)),
        1 | 2 => drop(bytes.splice(start..start, tap)),
        3 if random.one_in(4) => {
            let repeated = tap.repeat(random.below(258));
            bytes.splice(start..start, repeated);
        }
        _ => drop(bytes.splice(start..end, tap)),
    }
}

/// No argument can hold a byte 0.
fn change_argument(random: &mut Random, argument: &mut Option<Vec<u8>>) {
    let mut text = argument.take().unwrap_or_default();
    match random.below(8) {
        0 => return,
        1 => text = random.pick(&BAD_ARGUMENTS).into(),
        2 | 3 => text = random.below(40).to_string().into(),
        4 => drop(text.splice(0..0, vec![b'0'; random.below(2000)])),
        5 => text.push(b'0' + random.below(10) as u8),
        _ => change_bytes(random, &mut text),
    }
    text.retain(|byte| *byte != 0);
    *argument = Some(text);
}

/// One to four changes.
pub fn changed(random: &mut Random, input: &Input) -> Input {
    let mut input = input.clone();
    for _ in 0..=random.below(4) {
        match random.below(16) {
            0 => change_argument(random, &mut input.argument),
            1 => change_bytes(random, &mut input.bytes),
            _ => change_taps(random, &mut input.bytes),
        }
    }
    input
}
