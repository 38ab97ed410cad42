//! Digit planes of a grid of coefficients, written and read: the core's C entries, a literal version
//! and a fast one.

pub mod call;
pub mod core;
pub mod fast;
pub mod literal;
pub mod mixture;

pub const MOST_SIDE: usize = 16;
pub const MOST_CELLS: usize = MOST_SIDE * MOST_SIDE;

/// One plane for each place of a form.
pub const PLANES: usize = 32;
/// The 64-bit words of a plane, each with 64 cells.
pub const PLANE_WORDS: usize = 4;
/// The words of all planes, as many in either table.
pub const PLANE_TABLE: usize = PLANES * PLANE_WORDS;

/// The sides of a grid, whether they are within the bounds or not.
#[derive(Clone, Copy, Debug, PartialEq, Eq, Hash)]
pub struct Grid {
    pub height: usize,
    pub width: usize,
}

impl Grid {
    pub fn new(height: usize, width: usize) -> Self {
        Grid { height, width }
    }

    /// Every grid whose sides are within the bounds.
    pub fn all() -> impl Iterator<Item = Grid> {
        let sides = 1..=MOST_SIDE;
        sides.flat_map(|height| (1..=MOST_SIDE).map(move |width| Grid { height, width }))
    }

    /// How many cells there are; where there are too many to count, more than any table has.
    pub fn cells(self) -> usize {
        self.height.saturating_mul(self.width)
    }
}

/// Two tables: the masks of the digits 1, and those of the digits -1.
#[derive(Clone, Debug, PartialEq, Eq)]
pub struct Masks<T> {
    pub plus: Vec<T>,
    pub minus: Vec<T>,
}

impl<T: Clone + Default> Masks<T> {
    /// No digit at all, in tables of this length.
    pub fn zeros(length: usize) -> Self {
        Masks {
            plus: vec![T::default(); length],
            minus: vec![T::default(); length],
        }
    }
}
