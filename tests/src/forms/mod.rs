//! Minimal signed-digit forms: the core's C entries, a literal version and a fast one.

pub mod call;
pub mod core;
pub mod fast;
pub mod links;
pub mod literal;
pub mod mixture;
pub mod pattern;
pub mod weights;

/// No 32-bit coefficient has more minimal forms, and each table has room for as many.
pub const MOST_FORMS: usize = 1597;

/// A string of 32 digits: the places that hold 1 and the places that hold -1.
#[derive(Clone, Copy, Debug, PartialEq, Eq)]
pub struct Form {
    pub plus: u32,
    pub minus: u32,
}
