//! Attributes that leave their item as it is.

use proc_macro::TokenStream;

#[proc_macro_attribute]
pub fn pyclass(_words: TokenStream, item: TokenStream) -> TokenStream {
    item
}

#[proc_macro_attribute]
pub fn pyfunction(_words: TokenStream, item: TokenStream) -> TokenStream {
    item
}
