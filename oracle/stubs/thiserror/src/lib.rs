//! Stands in for the crate `thiserror`. The files here derive `Error` and never print it, so the derive adds nothing.

use proc_macro::TokenStream;

#[proc_macro_derive(Error, attributes(error))]
pub fn error(_item: TokenStream) -> TokenStream {
    TokenStream::new()
}
