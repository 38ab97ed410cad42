//! The C entries of the core beside two other versions of them: one written literally from the
//! paper's rules, and one written for speed.

pub mod answer;
pub mod building;
pub mod coefficients;
pub mod commands;
pub mod forms;
pub mod lent;
pub mod network;
pub mod planes;
pub mod random;
pub mod refusals;
pub mod running;
pub mod sheet;
pub mod taps;
pub mod verilog;
