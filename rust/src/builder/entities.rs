//! The nine entities.
// Each field is one of the format, by its name there.
#![allow(missing_docs)]

use super::{
    AggregateType, Argument, Attribute, Builder, Cast, Declaration, Operator, Part, PositioningRef,
    Return, ToSqlConfig, UsedType,
};
use crate::EntityKind;

/// A schema, of a Rust module.
#[derive(Clone, Copy, Debug, Default, PartialEq, Eq)]
pub struct Schema<'a> {
    pub module_path: &'a str,
    pub name: &'a str,
    pub file: &'a str,
    pub line: u32,
}

impl Part for Schema<'_> {
    fn add_to(&self, builder: &mut Builder) {
        builder
            .kind(EntityKind::Schema)
            .text(self.module_path)
            .text(self.name)
            .text(self.file)
            .number(self.line);
    }
}

/// SQL that the extension's author wrote.
#[derive(Clone, Copy, Debug, Default, PartialEq, Eq)]
pub struct CustomSql<'a> {
    pub sql: &'a str,
    pub module_path: &'a str,
    pub full_path: &'a str,
    pub file: &'a str,
    pub line: u32,
    pub name: &'a str,
    pub bootstrap: bool,
    pub finalize: bool,
    pub requires: &'a [PositioningRef<'a>],
    pub creates: &'a [Declaration<'a>],
}

impl Part for CustomSql<'_> {
    fn add_to(&self, builder: &mut Builder) {
        builder
            .kind(EntityKind::CustomSql)
            .text(self.sql)
            .text(self.module_path)
            .text(self.full_path)
            .text(self.file)
            .number(self.line)
            .text(self.name)
            .flag(self.bootstrap)
            .flag(self.finalize)
            .list(self.requires)
            .list(self.creates);
    }
}

/// A function.
#[derive(Clone, Copy, Debug, Default, PartialEq, Eq)]
pub struct Function<'a> {
    pub name: &'a str,
    pub unaliased_name: &'a str,
    pub module_path: &'a str,
    pub full_path: &'a str,
    pub fn_args: &'a [Argument<'a>],
    pub fn_return: Return<'a>,
    pub schema: Option<&'a str>,
    pub file: &'a str,
    pub line: u32,
    pub extern_attrs: &'a [Attribute<'a>],
    pub search_path: Option<&'a [&'a str]>,
    pub operator: Option<Operator<'a>>,
    pub cast: Option<Cast>,
    pub to_sql_config: ToSqlConfig<'a>,
}

impl Part for Function<'_> {
    fn add_to(&self, builder: &mut Builder) {
        builder
            .kind(EntityKind::Function)
            .text(self.name)
            .text(self.unaliased_name)
            .text(self.module_path)
            .text(self.full_path)
            .list(self.fn_args)
            .add(self.fn_return)
            .option(self.schema)
            .text(self.file)
            .number(self.line)
            .list(self.extern_attrs)
            .option(self.search_path.map(List))
            .option(self.operator)
            .option(self.cast)
            .add(self.to_sql_config);
    }
}

/// A type.
#[derive(Clone, Copy, Debug, Default, PartialEq, Eq)]
pub struct PostgresType<'a> {
    pub name: &'a str,
    pub file: &'a str,
    pub line: u32,
    pub module_path: &'a str,
    pub full_path: &'a str,
    pub type_ident: &'a str,
    pub in_fn_path: &'a str,
    pub out_fn_path: &'a str,
    pub receive_fn_path: Option<&'a str>,
    pub send_fn_path: Option<&'a str>,
    pub to_sql_config: ToSqlConfig<'a>,
    pub alignment: Option<u32>,
}

impl Part for PostgresType<'_> {
    fn add_to(&self, builder: &mut Builder) {
        builder
            .kind(EntityKind::Type)
            .text(self.name)
            .text(self.file)
            .number(self.line)
            .text(self.module_path)
            .text(self.full_path)
            .text(self.type_ident)
            .text(self.in_fn_path)
            .text(self.out_fn_path)
            .option(self.receive_fn_path)
            .option(self.send_fn_path)
            .add(self.to_sql_config)
            .option(self.alignment);
    }
}

/// An enum type.
#[derive(Clone, Copy, Debug, Default, PartialEq, Eq)]
pub struct PostgresEnum<'a> {
    pub name: &'a str,
    pub file: &'a str,
    pub line: u32,
    pub module_path: &'a str,
    pub full_path: &'a str,
    pub type_ident: &'a str,
    pub variants: &'a [&'a str],
    pub to_sql_config: ToSqlConfig<'a>,
}

impl Part for PostgresEnum<'_> {
    fn add_to(&self, builder: &mut Builder) {
        builder
            .kind(EntityKind::Enum)
            .text(self.name)
            .text(self.file)
            .number(self.line)
            .text(self.module_path)
            .text(self.full_path)
            .text(self.type_ident)
            .list(self.variants)
            .add(self.to_sql_config);
    }
}

/// The ordering of a type.
#[derive(Clone, Copy, Debug, Default, PartialEq, Eq)]
pub struct PostgresOrd<'a> {
    pub name: &'a str,
    pub file: &'a str,
    pub line: u32,
    pub full_path: &'a str,
    pub module_path: &'a str,
    pub type_ident: &'a str,
    pub to_sql_config: ToSqlConfig<'a>,
}

impl Part for PostgresOrd<'_> {
    fn add_to(&self, builder: &mut Builder) {
        builder
            .kind(EntityKind::Ord)
            .text(self.name)
            .text(self.file)
            .number(self.line)
            .text(self.full_path)
            .text(self.module_path)
            .text(self.type_ident)
            .add(self.to_sql_config);
    }
}

/// The hashing of a type.
#[derive(Clone, Copy, Debug, Default, PartialEq, Eq)]
pub struct PostgresHash<'a> {
    pub name: &'a str,
    pub file: &'a str,
    pub line: u32,
    pub full_path: &'a str,
    pub module_path: &'a str,
    pub type_ident: &'a str,
    pub to_sql_config: ToSqlConfig<'a>,
}

impl Part for PostgresHash<'_> {
    fn add_to(&self, builder: &mut Builder) {
        builder
            .kind(EntityKind::Hash)
            .text(self.name)
            .text(self.file)
            .number(self.line)
            .text(self.full_path)
            .text(self.module_path)
            .text(self.type_ident)
            .add(self.to_sql_config);
    }
}

/// An aggregate.
#[derive(Clone, Copy, Debug, Default, PartialEq, Eq)]
pub struct Aggregate<'a> {
    pub full_path: &'a str,
    pub module_path: &'a str,
    pub file: &'a str,
    pub line: u32,
    pub name: &'a str,
    pub ordered_set: bool,
    pub args: &'a [AggregateType<'a>],
    pub direct_args: Option<&'a [AggregateType<'a>]>,
    pub stype: AggregateType<'a>,
    pub sfunc: &'a str,
    pub finalfunc: Option<&'a str>,
    pub finalfunc_modify: Option<FinalizeModify>,
    pub combinefunc: Option<&'a str>,
    pub serialfunc: Option<&'a str>,
    pub deserialfunc: Option<&'a str>,
    pub initcond: Option<&'a str>,
    pub msfunc: Option<&'a str>,
    pub minvfunc: Option<&'a str>,
    pub mstype: Option<UsedType<'a>>,
    pub mfinalfunc: Option<&'a str>,
    pub mfinalfunc_modify: Option<FinalizeModify>,
    pub minitcond: Option<&'a str>,
    pub sortop: Option<&'a str>,
    pub parallel: Option<ParallelOption>,
    pub hypothetical: bool,
    pub to_sql_config: ToSqlConfig<'a>,
}

impl Part for Aggregate<'_> {
    fn add_to(&self, builder: &mut Builder) {
        builder
            .kind(EntityKind::Aggregate)
            .text(self.full_path)
            .text(self.module_path)
            .text(self.file)
            .number(self.line)
            .text(self.name)
            .flag(self.ordered_set)
            .list(self.args)
            .option(self.direct_args.map(List))
            .add(self.stype)
            .text(self.sfunc)
            .option(self.finalfunc)
            .option(self.finalfunc_modify)
            .option(self.combinefunc)
            .option(self.serialfunc)
            .option(self.deserialfunc)
            .option(self.initcond)
            .option(self.msfunc)
            .option(self.minvfunc)
            .option(self.mstype)
            .option(self.mfinalfunc)
            .option(self.mfinalfunc_modify)
            .option(self.minitcond)
            .option(self.sortop)
            .option(self.parallel)
            .flag(self.hypothetical)
            .add(self.to_sql_config);
    }
}

/// A trigger function.
#[derive(Clone, Copy, Debug, Default, PartialEq, Eq)]
pub struct Trigger<'a> {
    pub function_name: &'a str,
    pub file: &'a str,
    pub line: u32,
    pub module_path: &'a str,
    pub full_path: &'a str,
    pub to_sql_config: ToSqlConfig<'a>,
}

impl Part for Trigger<'_> {
    fn add_to(&self, builder: &mut Builder) {
        builder
            .kind(EntityKind::Trigger)
            .text(self.function_name)
            .text(self.file)
            .number(self.line)
            .text(self.module_path)
            .text(self.full_path)
            .add(self.to_sql_config);
    }
}

/// What an aggregate's final function does with the state.
#[derive(Clone, Copy, Debug, PartialEq, Eq)]
pub enum FinalizeModify {
    ReadOnly = 1,
    Shareable = 2,
    ReadWrite = 3,
}

impl Part for FinalizeModify {
    fn add_to(&self, builder: &mut Builder) {
        builder.tag(*self as u8);
    }
}

/// Whether an aggregate may run in parallel.
#[derive(Clone, Copy, Debug, PartialEq, Eq)]
pub enum ParallelOption {
    Safe = 1,
    Restricted = 2,
    Unsafe = 3,
}

impl Part for ParallelOption {
    fn add_to(&self, builder: &mut Builder) {
        builder.tag(*self as u8);
    }
}

/// A list that can be missing.
struct List<'a, P>(&'a [P]);

impl<P: Part> Part for List<'_, P> {
    fn add_to(&self, builder: &mut Builder) {
        builder.list(self.0);
    }
}
