//! Networks that are easy to get wrong.

use super::{Network, MINUS, NONE, PLUS, REVERSED};

/// The network of the paper's sheet, with the coefficients 3, -6, 45 and 0.
pub fn sheet() -> Network {
    Network::new(
        &[[0, 0, 0, PLUS, 1], [0, 0, 1, PLUS, 3], [1, 1, 4, MINUS, 45]],
        &[[PLUS, 1, 0], [MINUS, 1, 1], [PLUS, 2, 0], [NONE, 0, 0]],
    )
}

/// Rows of every sign, at the bounds of value and shift, with a row that no tap uses and two rows of
/// one value; taps at both ends of the range.
pub fn edges() -> Network {
    Network::new(
        &[
            [0, 0, 0, PLUS, 1],
            [0, 0, 31, MINUS, 0x7fff_ffff],
            [1, 1, 1, MINUS, 0x7fff_ffff],
            [0, 0, 1, PLUS, 3],
            [0, 1, 30, REVERSED, 0x3fff_ffff],
            [0, 0, 30, PLUS, 0x4000_0001],
            [3, 5, 30, MINUS, 0x7fff_ffff],
            [4, 0, 1, PLUS, 0x7fff_ffff],
            [0, 3, 1, REVERSED, 1],
            [8, 8, 2, MINUS, 3],
        ],
        &[
            [PLUS, 1, 0],
            [MINUS, 2, 0],
            [MINUS, 0, 31],
            [PLUS, 0, 30],
            [NONE, 0, 0],
            [MINUS, 8, 31],
            [PLUS, 9, 29],
            [MINUS, 9, 29],
            [PLUS, 0, 0],
        ],
    )
}
