//! Rounding one tap and a set of taps: the core's C entries, a literal version and a fast one.

pub mod binary64;
pub mod core;
pub mod fast;
pub mod hard;
pub mod hard_sets;
pub mod literal;
pub mod mixture;
pub mod set;
