//! In place of the crate syn: names for the macros' side, which never runs here.
use proc_macro2::{Span, TokenStream};
use quote::ToTokens;

pub use proc_macro2::Ident;

pub type Result<T> = std::result::Result<T, Error>;

pub struct Error;

impl Error {
    pub fn new(_span: Span, _message: impl std::fmt::Display) -> Self {
        Error
    }
}

#[derive(PartialEq)]
pub enum AttrStyle {
    Outer,
}

pub struct Attribute {
    pub style: AttrStyle,
}

impl Attribute {
    pub fn path(&self) -> &Path {
        &Path
    }

    pub fn parse_args<T: parse::Parse>(&self) -> Result<T> {
        Err(Error)
    }
}

#[derive(Clone, Debug)]
pub struct ItemMod {
    pub attrs: (),
    pub vis: (),
    pub mod_token: (),
    pub ident: Ident,
    pub content: Option<((), Vec<()>)>,
}

pub enum Lit {
    Str(LitStr),
    Other,
}

pub struct LitStr;

impl LitStr {
    pub fn value(&self) -> String {
        String::new()
    }

    pub fn span(&self) -> Span {
        Span
    }
}

pub struct Path;

impl Path {
    pub fn is_ident(&self, _name: &str) -> bool {
        false
    }
}

impl ToTokens for Path {
    fn to_tokens(&self, _tokens: &mut TokenStream) {}
}

pub mod spanned {
    pub trait Spanned {
        fn span(&self) -> proc_macro2::Span {
            proc_macro2::Span
        }
    }

    impl Spanned for super::Attribute {}
    impl Spanned for super::Lit {}
    impl Spanned for super::Path {}
}

pub mod parse {
    use super::{Error, ItemMod, LitStr, Path, Result};

    pub struct ParseBuffer;
    pub type ParseStream<'a> = &'a ParseBuffer;

    impl ParseBuffer {
        pub fn parse<T: Parse>(&self) -> Result<T> {
            T::parse(self)
        }
    }

    pub trait Parse: Sized {
        fn parse(_input: ParseStream) -> Result<Self> {
            Err(Error)
        }
    }

    impl Parse for ItemMod {}
    impl Parse for Option<LitStr> {}
    impl Parse for Path {}
}
