//! In place of the crate thiserror: an error's message is its debug text.
extern crate proc_macro;

use proc_macro::{TokenStream, TokenTree};

#[proc_macro_derive(Error, attributes(error))]
pub fn error(item: TokenStream) -> TokenStream {
    let mut tokens = item.into_iter().skip_while(|token| token.to_string() != "enum");
    let Some(TokenTree::Ident(name)) = tokens.nth(1) else { panic!("an enum") };
    format!(
        "impl std::fmt::Display for {name} {{
            fn fmt(&self, f: &mut std::fmt::Formatter<'_>) -> std::fmt::Result {{ write!(f, \"{{self:?}}\") }}
        }}
        impl std::error::Error for {name} {{}}"
    )
    .parse()
    .unwrap()
}
