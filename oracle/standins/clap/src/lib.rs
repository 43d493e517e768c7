//! Stand-in for `clap`: the derive `ValueEnum`, which only has to be accepted.
//!
//! Dithering never asks for the names of the command line, so nothing is made.

use proc_macro::TokenStream;

/// Accepts the derive with its two attributes and writes no code.
#[proc_macro_derive(ValueEnum, attributes(value, clap))]
pub fn value_enum(_item: TokenStream) -> TokenStream {
    TokenStream::new()
}
