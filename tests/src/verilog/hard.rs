//! Networks whose text is easy to get wrong.

use crate::network::{Network, MINUS, MOST_ROWS, MOST_TAPS, NONE, PLUS, REVERSED};

/// Row 0 alone and one empty tap: the smallest text.
pub fn smallest() -> Network {
    Network::new(&[[0, 0, 0, PLUS, 1]], &[[NONE, 0, 0]])
}

/// The largest text: rows of 1025 and 1 in turn, each from the row before it, and -2^31 at every tap.
pub fn largest() -> Network {
    let mut rows = vec![[0, 0, 0, PLUS, 1]];
    for i in 1..MOST_ROWS as u32 {
        rows.push(match i % 2 {
            1 => [i - 1, i - 1, 10, PLUS, 1025],
            _ => [i - 2, i - 1, 10, REVERSED, 1],
        });
    }
    Network::new(&rows, &[[MINUS, 4094, 31]; MOST_TAPS])
}

/// So many rows of 1, each from the row before it, and every tap at the last one.
pub fn row_numbers(row_count: usize, tap_count: usize) -> Network {
    let row = |i: u32| match i {
        0 => [0, 0, 0, PLUS, 1],
        i => [i - 1, i - 1, 1, MINUS, 1],
    };
    let rows: Vec<[u32; 5]> = (0..row_count as u32).map(row).collect();
    Network::new(&rows, &vec![[PLUS, row_count as u32 - 1, 0]; tap_count])
}

/// Coefficients whose network, built with the first forms, has a row that nothing uses: a chain adds it
/// and goes on from a row that was there.
pub const ROW_LEFT_OVER: [i32; 8] = [59941, 22280, 1564, 4154, 12453, 11512, 30690, 46055];

/// -2^31 and 2^31 - 1.
pub fn ends_of_range() -> Network {
    let rows = [[0, 0, 0, PLUS, 1], [0, 0, 31, MINUS, 0x7fff_ffff]];
    Network::new(&rows, &[[MINUS, 0, 31], [PLUS, 1, 0]])
}
