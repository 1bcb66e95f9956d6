//! In place of the crate quote: names for the macros' side, which never runs here.
use proc_macro2::TokenStream;

#[doc(hidden)]
pub use proc_macro2 as tokens;

pub trait ToTokens {
    fn to_tokens(&self, tokens: &mut TokenStream);

    fn to_token_stream(&self) -> TokenStream {
        TokenStream
    }
}

impl ToTokens for TokenStream {
    fn to_tokens(&self, _tokens: &mut TokenStream) {}
}

pub trait TokenStreamExt {
    fn append<T>(&mut self, _token: T) {}
    fn append_all<T>(&mut self, _tokens: T) {}
}

impl TokenStreamExt for TokenStream {}

#[macro_export]
macro_rules! quote {
    ($($token:tt)*) => { $crate::tokens::TokenStream };
}

#[macro_export]
macro_rules! format_ident {
    ($($argument:tt)*) => { $crate::tokens::Ident };
}
