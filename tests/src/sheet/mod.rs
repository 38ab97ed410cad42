//! The sheet program: running it, a literal version of what it prints, and what it is handed.

pub mod input;
pub mod literal;
pub mod mixture;
pub mod mutation;
pub mod program;
pub mod text;
