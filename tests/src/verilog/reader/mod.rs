//! A reader of the few forms of Verilog that describe a network, by the rules of IEEE 1364-2005: bytes
//! to tokens, tokens to a module, and the module's values for an input. A text outside these forms has
//! no meaning: nothing is given for it. Widths go up to 64, and no bit is unknown.

mod keywords;
mod syntax;
mod tokens;
mod values;

pub use syntax::{Module, Net};
pub use values::Value;

/// The module that the text describes, if it has a meaning.
pub fn read(text: &[u8]) -> Option<Module> {
    syntax::module(&tokens::tokens(text)?)
}
