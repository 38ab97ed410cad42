//! Verilog for networks: the core's C entry, a literal version and a fast one, and a reader of such
//! text.

pub mod call;
pub mod core;
pub mod examples;
pub mod fast;
pub mod hard;
pub mod literal;
pub mod mixture;
pub mod modules;
pub mod reader;
pub mod samples;
pub mod tools;

/// The bytes of the largest text, and of the smallest: row 0 alone and one empty tap.
pub const MOST_BYTES: usize = 276_457;
pub const LEAST_BYTES: usize = 128;
