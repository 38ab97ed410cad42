//! No table of digit counts is in the library or in the sheet program, nor 16 entries of one.

use fir_tests::random::Random;
use fir_tests::sheet::program::{root, sheet};
use std::fs::read;

/// Bytes an element may have.
const WIDTHS: [usize; 4] = [1, 2, 4, 8];

/// The part of a table that is looked for: the number of ones of 16k to 16k + 15.
#[derive(Clone, Copy, Debug, PartialEq, Eq)]
struct Stretch {
    k: usize,
    width: usize,
}

impl Stretch {
    fn bytes(self) -> Vec<u8> {
        let numbers = 16 * self.k..16 * self.k + 16;
        let element = |n: usize| u64::from(n.count_ones()).to_le_bytes();
        let elements = numbers.map(element);
        elements.flat_map(|e| e[..self.width].to_vec()).collect()
    }
}

fn stretches() -> Vec<Stretch> {
    let of_width = |width| (0..16).map(move |k| Stretch { k, width });
    WIDTHS.into_iter().flat_map(of_width).collect()
}

/// Every stretch that the bytes hold, with its offset.
fn found(bytes: &[u8]) -> Vec<(Stretch, usize)> {
    let mut list = Vec::new();
    for stretch in stretches() {
        let wanted = stretch.bytes();
        let windows = bytes.windows(wanted.len()).enumerate();
        let here = windows.filter(|(_, window)| *window == wanted);
        list.extend(here.map(|(offset, _)| (stretch, offset)));
    }
    list
}

/// The search finds each stretch in the middle of other bytes, and none with one element wrong.
fn search_is_right() {
    let mut random = Random::new(14);
    let others: Vec<u8> = (0..1001).map(|_| random.bits() as u8).collect();
    assert_eq!(found(&others), []);
    for stretch in stretches() {
        let mut bytes = others.clone();
        let offset = 2 * random.below(400) + 1;
        let wanted = stretch.bytes();
        bytes[offset..offset + wanted.len()].copy_from_slice(&wanted);
        assert!(found(&bytes).contains(&(stretch, offset)), "{stretch:?}");
        bytes[offset + random.below(16) * stretch.width] += 1;
        assert_eq!(found(&bytes), [], "{stretch:?}");
    }
}

#[test]
fn no_table() {
    search_is_right();
    for file in [root().join("target/staticlib/libfir.a"), sheet()] {
        let bytes = read(&file).unwrap();
        assert!(bytes.len() > 10_000, "{}", file.display());
        assert_eq!(found(&bytes), [], "{}", file.display());
    }
}
