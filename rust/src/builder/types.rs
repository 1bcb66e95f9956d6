//! Used types and their metadata.
// Each field and each case is one of the format, by its name there.
#![allow(missing_docs)]

use super::{Builder, Part};

/// A type, where a function or an aggregate uses it.
#[derive(Clone, Copy, Debug, Default, PartialEq, Eq)]
pub struct UsedType<'a> {
    pub ty_source: &'a str,
    pub full_path: &'a str,
    pub composite_type: Option<&'a str>,
    pub variadic: bool,
    pub default: Option<&'a str>,
    pub optional: bool,
    pub metadata: Metadata<'a>,
}

impl<'a> UsedType<'a> {
    /// A type with the name that it has in Rust, as `i32`, and the one that it has in SQL, as `INT`,
    /// both as an argument and as a result.
    pub const fn new(ty_source: &'a str, sql: &'a str) -> UsedType<'a> {
        UsedType {
            ty_source,
            full_path: ty_source,
            composite_type: None,
            variadic: false,
            default: None,
            optional: false,
            metadata: Metadata::new(SqlMapping::As(sql)),
        }
    }
}

impl Part for UsedType<'_> {
    fn add_to(&self, builder: &mut Builder) {
        builder
            .text(self.ty_source)
            .text(self.full_path)
            .option(self.composite_type)
            .flag(self.variadic)
            .option(self.default)
            .flag(self.optional)
            .add(self.metadata);
    }
}

/// An argument of a function.
#[derive(Clone, Copy, Debug, Default, PartialEq, Eq)]
pub struct Argument<'a> {
    pub pattern: &'a str,
    pub used_ty: UsedType<'a>,
}

impl<'a> Argument<'a> {
    /// An argument with its name and its type.
    pub const fn new(pattern: &'a str, used_ty: UsedType<'a>) -> Argument<'a> {
        Argument { pattern, used_ty }
    }
}

impl Part for Argument<'_> {
    fn add_to(&self, builder: &mut Builder) {
        builder.text(self.pattern).add(self.used_ty);
    }
}

/// What a function returns: by default nothing.
#[derive(Clone, Copy, Debug, Default, PartialEq, Eq)]
pub enum Return<'a> {
    #[default]
    None,
    Type(UsedType<'a>),
    SetOf(UsedType<'a>),
    Iterated(&'a [AggregateType<'a>]),
    Trigger,
}

impl Part for Return<'_> {
    fn add_to(&self, builder: &mut Builder) {
        match self {
            Return::None => builder.tag(1),
            Return::Type(ty) => builder.tag(2).add(ty),
            Return::SetOf(ty) => builder.tag(3).add(ty),
            Return::Iterated(tys) => builder.tag(4).list(tys),
            Return::Trigger => builder.tag(5),
        };
    }
}

/// A type of an aggregate, or of an iterated return, with a name that can be missing.
#[derive(Clone, Copy, Debug, Default, PartialEq, Eq)]
pub struct AggregateType<'a> {
    pub name: Option<&'a str>,
    pub used_ty: UsedType<'a>,
}

impl<'a> AggregateType<'a> {
    /// A type without name.
    pub const fn new(used_ty: UsedType<'a>) -> AggregateType<'a> {
        AggregateType {
            name: None,
            used_ty,
        }
    }
}

impl Part for AggregateType<'_> {
    fn add_to(&self, builder: &mut Builder) {
        builder.option(self.name).add(self.used_ty);
    }
}

/// A metadata record: how a type is written in SQL. By default it is Skip, both as an argument and
/// as a result.
#[derive(Clone, Copy, Debug, PartialEq, Eq)]
pub struct Metadata<'a> {
    pub resolution: Option<Resolution<'a>>,
    pub argument_sql: Result<SqlMapping<'a>, ArgumentError<'a>>,
    pub return_sql: Result<Returns<'a>, ReturnsError>,
}

impl<'a> Metadata<'a> {
    /// The record of a type with one mapping, both as an argument and as a result.
    pub const fn new(mapping: SqlMapping<'a>) -> Metadata<'a> {
        Metadata {
            resolution: None,
            argument_sql: Ok(mapping),
            return_sql: Ok(Returns::One(mapping)),
        }
    }
}

impl Default for Metadata<'_> {
    fn default() -> Self {
        Metadata::new(SqlMapping::Skip)
    }
}

impl Part for Metadata<'_> {
    fn add_to(&self, builder: &mut Builder) {
        builder.option(self.resolution);
        match self.argument_sql {
            Ok(mapping) => builder.tag(1).add(mapping),
            Err(error) => builder.tag(2).add(error),
        };
        match self.return_sql {
            Ok(returns) => builder.tag(1).add(returns),
            Err(error) => builder.tag(2).add(error),
        };
    }
}

/// Where a type comes from.
#[derive(Clone, Copy, Debug, PartialEq, Eq)]
pub struct Resolution<'a> {
    pub type_ident: &'a str,
    pub type_origin: TypeOrigin,
}

impl Part for Resolution<'_> {
    fn add_to(&self, builder: &mut Builder) {
        builder.text(self.type_ident).add(self.type_origin);
    }
}

/// Whether a type is one of the extension.
#[derive(Clone, Copy, Debug, PartialEq, Eq)]
pub enum TypeOrigin {
    ThisExtension = 1,
    External = 2,
}

impl Part for TypeOrigin {
    fn add_to(&self, builder: &mut Builder) {
        builder.tag(*self as u8);
    }
}

/// How a type is mapped to SQL.
#[derive(Clone, Copy, Debug, PartialEq, Eq)]
pub enum SqlMapping<'a> {
    As(&'a str),
    Array(SqlArrayMapping<'a>),
    Numeric {
        precision: Option<u32>,
        scale: Option<u32>,
    },
    Composite,
    Skip,
}

impl Part for SqlMapping<'_> {
    fn add_to(&self, builder: &mut Builder) {
        match *self {
            SqlMapping::As(sql) => builder.tag(1).text(sql),
            SqlMapping::Array(items) => builder.tag(2).add(items),
            SqlMapping::Numeric { precision, scale } => numeric(builder, precision, scale),
            SqlMapping::Composite => builder.tag(4),
            SqlMapping::Skip => builder.tag(5),
        };
    }
}

/// How the items of an array are mapped to SQL.
#[derive(Clone, Copy, Debug, PartialEq, Eq)]
pub enum SqlArrayMapping<'a> {
    As(&'a str),
    Numeric {
        precision: Option<u32>,
        scale: Option<u32>,
    },
    Composite,
}

impl Part for SqlArrayMapping<'_> {
    fn add_to(&self, builder: &mut Builder) {
        match *self {
            SqlArrayMapping::As(sql) => builder.tag(1).text(sql),
            SqlArrayMapping::Numeric { precision, scale } => numeric(builder, precision, scale),
            SqlArrayMapping::Composite => builder.tag(4),
        };
    }
}

/// A Numeric mapping has both numbers always; one that is not used is 0.
fn numeric(builder: &mut Builder, precision: Option<u32>, scale: Option<u32>) -> &mut Builder {
    builder.tag(3);
    for number in [precision, scale] {
        builder
            .flag(number.is_some())
            .number(number.unwrap_or_default());
    }
    builder
}

/// What a type is as a result.
#[derive(Clone, Copy, Debug, PartialEq, Eq)]
pub enum Returns<'a> {
    One(SqlMapping<'a>),
    SetOf(SqlMapping<'a>),
    Table(&'a [SqlMapping<'a>]),
}

impl Part for Returns<'_> {
    fn add_to(&self, builder: &mut Builder) {
        match self {
            Returns::One(mapping) => builder.tag(1).add(mapping),
            Returns::SetOf(mapping) => builder.tag(2).add(mapping),
            Returns::Table(mappings) => builder.tag(3).list(mappings),
        };
    }
}

/// Why a type cannot be an argument.
#[derive(Clone, Copy, Debug, PartialEq, Eq)]
pub enum ArgumentError<'a> {
    SetOf,
    Table,
    NestedArray,
    BareU8,
    SkipInArray,
    Datum,
    NotValidAsArgument(&'a str),
}

impl Part for ArgumentError<'_> {
    fn add_to(&self, builder: &mut Builder) {
        match self {
            ArgumentError::SetOf => builder.tag(1),
            ArgumentError::Table => builder.tag(2),
            ArgumentError::NestedArray => builder.tag(3),
            ArgumentError::BareU8 => builder.tag(4),
            ArgumentError::SkipInArray => builder.tag(5),
            ArgumentError::Datum => builder.tag(6),
            ArgumentError::NotValidAsArgument(name) => builder.tag(7).text(name),
        };
    }
}

/// Why a type cannot be a result.
#[derive(Clone, Copy, Debug, PartialEq, Eq)]
pub enum ReturnsError {
    NestedSetOf = 1,
    NestedTable = 2,
    NestedArray = 3,
    SetOfContainingTable = 4,
    TableContainingSetOf = 5,
    SetOfInArray = 6,
    TableInArray = 7,
    BareU8 = 8,
    SkipInArray = 9,
    Datum = 10,
}

impl Part for ReturnsError {
    fn add_to(&self, builder: &mut Builder) {
        builder.tag(*self as u8);
    }
}
