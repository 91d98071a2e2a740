//! Stand-in, not the crate bytemuck: the two derive macros that audiofp
//! names. They emit nothing; neither index casts a fingerprint to bytes.

use proc_macro::TokenStream;

#[proc_macro_derive(Pod)]
pub fn pod(_item: TokenStream) -> TokenStream {
    TokenStream::new()
}

#[proc_macro_derive(Zeroable)]
pub fn zeroable(_item: TokenStream) -> TokenStream {
    TokenStream::new()
}
