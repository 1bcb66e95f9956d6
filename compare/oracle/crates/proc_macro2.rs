//! In place of the crate proc_macro2: names for the macros' side, which never runs here.
use std::fmt::{Display, Formatter};

#[derive(Clone, Debug)]
pub struct TokenStream;

#[derive(Clone, Copy, Debug)]
pub struct Span;

#[derive(Clone, Debug)]
pub struct Ident;

pub struct Group;
pub struct Punct;
pub struct Literal;

pub enum TokenTree {
    Group(Group),
    Ident(Ident),
    Punct(Punct),
    Literal(Literal),
}

impl Group {
    pub fn stream(&self) -> TokenStream {
        TokenStream
    }
}

impl Ident {
    pub fn new(_name: &str, _span: Span) -> Self {
        Ident
    }

    pub fn span(&self) -> Span {
        Span
    }
}

impl Span {
    pub fn mixed_site() -> Self {
        Span
    }
}

impl IntoIterator for TokenStream {
    type Item = TokenTree;
    type IntoIter = std::iter::Empty<TokenTree>;
    fn into_iter(self) -> Self::IntoIter {
        std::iter::empty()
    }
}

macro_rules! display {
    ($($name:ident)*) => {$(
        impl Display for $name {
            fn fmt(&self, _: &mut Formatter<'_>) -> std::fmt::Result {
                Ok(())
            }
        }
    )*};
}

display! { TokenStream TokenTree Ident }
