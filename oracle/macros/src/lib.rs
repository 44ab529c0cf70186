//! Macros of the absent crates that mean nothing here: each leaves the code it stands on as it is.

use proc_macro::TokenStream;

#[proc_macro_attribute]
pub fn instrument(_arguments: TokenStream, item: TokenStream) -> TokenStream {
    item
}

#[proc_macro_derive(Component)]
pub fn component(_item: TokenStream) -> TokenStream {
    TokenStream::new()
}

#[proc_macro_derive(Serialize)]
pub fn serialize(_item: TokenStream) -> TokenStream {
    TokenStream::new()
}

#[proc_macro_derive(Deserialize)]
pub fn deserialize(_item: TokenStream) -> TokenStream {
    TokenStream::new()
}
