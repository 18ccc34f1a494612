//! Derives that do nothing: the source derives `FromTLV` and `ToTLV` for what it
//! persists, and nothing is persisted here.

use proc_macro::TokenStream;

#[proc_macro_derive(FromTLV)]
pub fn from_tlv(_item: TokenStream) -> TokenStream {
    TokenStream::new()
}

#[proc_macro_derive(ToTLV)]
pub fn to_tlv(_item: TokenStream) -> TokenStream {
    TokenStream::new()
}
