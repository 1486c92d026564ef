//! A stub of the crate `thiserror`: params.rs derives `Error`, and nothing compared uses it.

extern crate proc_macro;

use proc_macro::TokenStream;

#[proc_macro_derive(Error, attributes(error))]
pub fn error(_: TokenStream) -> TokenStream {
    TokenStream::new()
}
