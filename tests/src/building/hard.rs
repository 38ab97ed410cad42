//! Sets that are easy to get wrong, with the rows past row 0 worked out by hand.

use super::call::{Call, Row};
use crate::network::{MINUS, PLUS};

#[derive(Clone)]
pub struct Figure {
    pub call: Call,
    pub rows: Vec<Row>,
}

fn figure(coefficients: &[i32], rows: &[Row]) -> Figure {
    chosen(coefficients, &vec![0; coefficients.len()], rows)
}

fn chosen(coefficients: &[i32], choices: &[u32], rows: &[Row]) -> Figure {
    let call = Call::new(coefficients, choices);
    let rows = [&[[0, 0, 0, PLUS, 1]], rows].concat();
    Figure { call, rows }
}

/// The paper's sheet, and sets that add no row or one.
pub fn small() -> Vec<Figure> {
    let three = [0, 0, 1, PLUS, 3];
    let most = [0, 0, 31, MINUS, 0x7fff_ffff];
    vec![
        figure(&[3, -6, 45, 0], &[three, [1, 1, 4, MINUS, 45]]),
        figure(&[1], &[]),
        figure(&[-1, 4, i32::MIN, 0, 1 << 30], &[]),
        figure(&[0], &[]),
        figure(&[0; 256], &[]),
        figure(&[i32::MIN; 256], &[]),
        figure(&[-3], &[three]),
        figure(&[0, 3 << 29, -3 << 29], &[three]),
        figure(&[i32::MAX], &[most]),
        figure(&[i32::MIN, i32::MIN + 1, i32::MAX], &[most]),
    ]
}

/// Sets in which two fits compete, or the shifted left row is large.
pub fn searches() -> Vec<Figure> {
    let far = (1 << 30) + 5;
    vec![
        // 2^30·3 is past 2^31.
        figure(
            &[i32::MAX - 4, 3, far],
            &[
                [0, 0, 1, PLUS, 3],
                [0, 0, 28, PLUS, (1 << 28) + 1],
                [2, 0, 2, PLUS, far as u32],
                [1, 3, 30, MINUS, (1 << 31) - 5],
            ],
        ),
        // 2^31 - 3, with the largest shift.
        figure(
            &[i32::MAX - 2, 3],
            &[[0, 0, 1, PLUS, 3], [0, 1, 31, MINUS, (1 << 31) - 3]],
        ),
        // 4 + 7 and 15 - 4.
        figure(
            &[15, 11, 7],
            &[
                [0, 0, 3, MINUS, 7],
                [0, 1, 3, PLUS, 15],
                [0, 1, 2, PLUS, 11],
            ],
        ),
        // 4·17 - 15 and 121 - 4·17.
        figure(
            &[17, 121, 53],
            &[
                [0, 0, 4, PLUS, 17],
                [0, 0, 4, MINUS, 15],
                [2, 0, 3, PLUS, 121],
                [1, 2, 2, MINUS, 53],
            ],
        ),
    ]
}

/// Sets whose chains meet rows, and forms other than the first.
pub fn chains() -> Vec<Figure> {
    let (prefix, middle, last) = ((1 << 20) + 1, (1 << 24) + 17, (1 << 29) + 545);
    vec![
        figure(
            &[last, prefix],
            &[
                [0, 0, 20, PLUS, prefix as u32],
                [1, 0, 4, PLUS, middle],
                [2, 0, 5, PLUS, last as u32],
            ],
        ),
        // 32 + 8 + 4 + 1.
        chosen(
            &[45],
            &[4],
            &[[0, 0, 2, PLUS, 5], [1, 0, 1, PLUS, 11], [2, 0, 2, PLUS, 45]],
        ),
        // 64 - 16 - 2 - 1: the earliest tap's choice, not the later ones'.
        chosen(
            &[0, -90, 45, 180],
            &[0, 1, 4, 0],
            &[
                [0, 0, 2, MINUS, 3],
                [1, 0, 3, MINUS, 23],
                [2, 0, 1, MINUS, 45],
            ],
        ),
    ]
}
