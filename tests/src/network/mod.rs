//! Networks of rows and tap rows: the core's C entries, a literal version and a fast one.

pub mod call;
pub mod core;
pub mod damage;
pub mod fast;
pub mod hard;
pub mod literal;
pub mod mixture;

/// Left, right, shift, sign, value.
pub const ROW_WORDS: usize = 5;
/// Sign, row, shift.
pub const TAP_WORDS: usize = 3;

pub const MOST_ROWS: usize = 4096;
pub const MOST_TAPS: usize = 256;

/// The words that the tables have room for.
pub const ROW_TABLE: usize = ROW_WORDS * MOST_ROWS;
pub const TAP_TABLE: usize = TAP_WORDS * MOST_TAPS;

/// The signs, as they are stored; an empty tap row has none.
pub const PLUS: u32 = '+' as u32;
pub const MINUS: u32 = '-' as u32;
pub const REVERSED: u32 = 'r' as u32;
pub const NONE: u32 = 0;

/// Two tables, and how many rows of each are in use.
#[derive(Clone, PartialEq, Eq)]
pub struct Network {
    pub rows: Vec<u32>,
    pub row_count: usize,
    pub taps: Vec<u32>,
    pub tap_count: usize,
}

impl Network {
    /// Tables of just the length that is asked for, zeros past these rows and tap rows.
    pub fn new(rows: &[[u32; ROW_WORDS]], taps: &[[u32; TAP_WORDS]]) -> Self {
        let mut network = Network {
            rows: rows.concat(),
            row_count: rows.len(),
            taps: taps.concat(),
            tap_count: taps.len(),
        };
        network.rows.resize(ROW_TABLE, 0);
        network.taps.resize(TAP_TABLE, 0);
        network
    }
}
