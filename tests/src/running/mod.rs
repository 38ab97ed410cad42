//! Running a network over samples: the core's C entry, a literal version, a plain loop and a fast
//! one.

pub mod call;
pub mod core;
pub mod fast;
pub mod literal;
pub mod mixture;
pub mod plain;

pub const REGISTERS: usize = 256;
