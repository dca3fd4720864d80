//! Stands in for the crate thiserror, of which cobs 0.5.1 uses the derive alone: it derives nothing.
extern crate proc_macro;
use proc_macro::TokenStream;

#[proc_macro_derive(Error, attributes(error))]
pub fn derive_error(_: TokenStream) -> TokenStream {
    TokenStream::new()
}
