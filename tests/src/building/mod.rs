//! Building a network from chosen forms: the core's C entry, a literal version and a fast one.

pub mod bounds;
pub mod call;
pub mod chosen;
pub mod core;
pub mod fast;
pub mod fits;
pub mod hard;
pub mod index;
pub mod literal;
pub mod mixture;
pub mod search;
pub mod sets;
