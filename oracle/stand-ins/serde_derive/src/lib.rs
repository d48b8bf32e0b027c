//! Stand-in for `serde_derive`. The traits of the `serde` stand-in hold for every type, so there is
//! nothing to derive.

use proc_macro::TokenStream;

/// Accepts `#[derive(Serialize)]` and adds nothing.
#[proc_macro_derive(Serialize)]
pub fn serialize(_item: TokenStream) -> TokenStream {
    TokenStream::new()
}

/// Accepts `#[derive(Deserialize)]` and adds nothing.
#[proc_macro_derive(Deserialize)]
pub fn deserialize(_item: TokenStream) -> TokenStream {
    TokenStream::new()
}
