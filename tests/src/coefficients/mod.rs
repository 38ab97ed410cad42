//! Reduction of a coefficient and trimming of a filter: the core's C entries and a literal version.

pub mod core;
pub mod literal;
pub mod mixture;

/// Sign × odd part × 2^shift; all three 0 for zero, which has no odd part.
#[derive(Clone, Copy, Debug, PartialEq, Eq)]
pub struct Reduced {
    /// 1 for a sign of -1, else 0.
    pub negative: u32,
    pub odd_part: u32,
    pub shift: u32,
}
