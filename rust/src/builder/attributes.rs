//! The parts of entities that hold no type, and the declarations of custom SQL.
// Each field and each case is one of the format, by its name there.
#![allow(missing_docs)]

use super::{Builder, Part, SqlMapping};

/// How the SQL of an entity is made: by default as pgrx makes it.
#[derive(Clone, Copy, Debug, PartialEq, Eq)]
pub struct ToSqlConfig<'a> {
    pub enabled: bool,
    pub content: Option<&'a str>,
}

impl Default for ToSqlConfig<'_> {
    fn default() -> Self {
        ToSqlConfig {
            enabled: true,
            content: None,
        }
    }
}

impl Part for ToSqlConfig<'_> {
    fn add_to(&self, builder: &mut Builder) {
        builder.flag(self.enabled).option(self.content);
    }
}

/// Another entity, as one that has to be created first.
#[derive(Clone, Copy, Debug, PartialEq, Eq)]
pub enum PositioningRef<'a> {
    FullPath(&'a str),
    Name(&'a str),
}

impl Part for PositioningRef<'_> {
    fn add_to(&self, builder: &mut Builder) {
        match self {
            PositioningRef::FullPath(path) => builder.tag(1).text(path),
            PositioningRef::Name(name) => builder.tag(2).text(name),
        };
    }
}

/// An attribute of a function.
#[derive(Clone, Copy, Debug, PartialEq, Eq)]
pub enum Attribute<'a> {
    CreateOrReplace,
    Immutable,
    Strict,
    Stable,
    Volatile,
    Raw,
    NoGuard,
    SecurityDefiner,
    SecurityInvoker,
    ParallelSafe,
    ParallelUnsafe,
    ParallelRestricted,
    ShouldPanic(&'a str),
    Schema(&'a str),
    Support(PositioningRef<'a>),
    Name(&'a str),
    Cost(&'a str),
    Requires(&'a [PositioningRef<'a>]),
}

impl Part for Attribute<'_> {
    fn add_to(&self, builder: &mut Builder) {
        match self {
            Attribute::CreateOrReplace => builder.tag(1),
            Attribute::Immutable => builder.tag(2),
            Attribute::Strict => builder.tag(3),
            Attribute::Stable => builder.tag(4),
            Attribute::Volatile => builder.tag(5),
            Attribute::Raw => builder.tag(6),
            Attribute::NoGuard => builder.tag(7),
            Attribute::SecurityDefiner => builder.tag(8),
            Attribute::SecurityInvoker => builder.tag(9),
            Attribute::ParallelSafe => builder.tag(10),
            Attribute::ParallelUnsafe => builder.tag(11),
            Attribute::ParallelRestricted => builder.tag(12),
            Attribute::ShouldPanic(message) => builder.tag(13).text(message),
            Attribute::Schema(name) => builder.tag(14).text(name),
            Attribute::Support(function) => builder.tag(15).add(function),
            Attribute::Name(name) => builder.tag(16).text(name),
            Attribute::Cost(cost) => builder.tag(17).text(cost),
            Attribute::Requires(others) => builder.tag(18).list(others),
        };
    }
}

/// The operator that a function implements.
#[derive(Clone, Copy, Debug, Default, PartialEq, Eq)]
pub struct Operator<'a> {
    pub opname: Option<&'a str>,
    pub commutator: Option<&'a str>,
    pub negator: Option<&'a str>,
    pub restrict: Option<&'a str>,
    pub join: Option<&'a str>,
    pub hashes: bool,
    pub merges: bool,
}

impl Part for Operator<'_> {
    fn add_to(&self, builder: &mut Builder) {
        builder
            .option(self.opname)
            .option(self.commutator)
            .option(self.negator)
            .option(self.restrict)
            .option(self.join)
            .flag(self.hashes)
            .flag(self.merges);
    }
}

/// The cast that a function implements.
#[derive(Clone, Copy, Debug, PartialEq, Eq)]
pub enum Cast {
    Default = 1,
    Assignment = 2,
    Implicit = 3,
}

impl Part for Cast {
    fn add_to(&self, builder: &mut Builder) {
        builder.tag(*self as u8);
    }
}

/// What custom SQL declares. The mapping of a type or of an enum must be As or Numeric: the rows of
/// another are refused with 14.
#[derive(Clone, Copy, Debug, PartialEq, Eq)]
pub enum Declaration<'a> {
    Type {
        name: &'a str,
        type_ident: &'a str,
        sql: SqlMapping<'a>,
    },
    Enum {
        name: &'a str,
        type_ident: &'a str,
        sql: SqlMapping<'a>,
    },
    Function {
        name: &'a str,
    },
}

impl Part for Declaration<'_> {
    fn add_to(&self, builder: &mut Builder) {
        let (kind, name) = match self {
            Declaration::Type { name, .. } => (1, name),
            Declaration::Enum { name, .. } => (2, name),
            Declaration::Function { name } => (3, name),
        };
        builder.tag(kind).text(name);
        match self {
            Declaration::Type {
                type_ident, sql, ..
            }
            | Declaration::Enum {
                type_ident, sql, ..
            } => builder.text(type_ident).tag(1).add(sql), // Ok
            Declaration::Function { .. } => builder,
        };
    }
}
