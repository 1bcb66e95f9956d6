pub enum ArgValue {
    Lit(syn::Lit),
    Path(syn::Path),
}

pub struct NameValue {
    pub path: syn::Path,
    pub value: ArgValue,
}

pub enum PgrxArg {
    NameValue(NameValue),
}

pub struct PgrxAttribute {
    pub args: Vec<PgrxArg>,
}

impl syn::parse::Parse for PgrxAttribute {}
