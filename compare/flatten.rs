//! The leaves of the Rust's objects, in the order in which they stand in a payload. A Numeric mapping is an As there.
use crate::layouts::{ARRAY, AS, COMPOSITE, SKIP};
use crate::objects::Objects;
use pgrx_sql_entity_graph::metadata::*;
use pgrx_sql_entity_graph::section as s;
use pgrx_sql_entity_graph::*;

/// The leaves of some objects.
#[derive(Default)]
pub struct Leaves<'a> {
    /// Kinds, tags, flags, numbers and counts, each in four bytes, and the bytes of texts.
    pub dump: Vec<u8>,
    /// The texts that the objects borrow from the bytes that were read.
    pub borrowed: Vec<&'a str>,
    /// How many leaves there are.
    pub count: usize,
}

pub fn leaves<'a>(objects: &'a Objects<'a>) -> Leaves<'a> {
    let mut leaves = Leaves::default();
    match objects {
        Objects::Entities(entities) => entities.iter().for_each(|entity| leaves.entity(entity)),
        Objects::Metadata(metadata) => leaves.metadata(metadata),
        Objects::Mapping(mapping) => leaves.mapping(mapping),
    }
    leaves
}

/// The full_path of an entity that has one.
pub fn full_path<'a>(entity: &SqlGraphEntity<'a>) -> Option<&'a str> {
    match entity {
        SqlGraphEntity::CustomSql(entity) => Some(entity.full_path),
        SqlGraphEntity::Function(entity) => Some(entity.full_path),
        SqlGraphEntity::Type(entity) => Some(entity.full_path),
        SqlGraphEntity::Enum(entity) => Some(entity.full_path),
        SqlGraphEntity::Ord(entity) => Some(entity.full_path),
        SqlGraphEntity::Hash(entity) => Some(entity.full_path),
        SqlGraphEntity::Aggregate(entity) => Some(entity.full_path),
        SqlGraphEntity::Trigger(entity) => Some(entity.full_path),
        _ => None,
    }
}

impl<'a> Leaves<'a> {
    fn number(&mut self, number: u32) {
        self.dump.extend(number.to_le_bytes());
        self.count += 1;
    }

    fn tag(&mut self, tag: u8) {
        self.number(tag.into());
    }

    fn flag(&mut self, flag: bool) {
        self.number(flag.into());
    }

    fn owned(&mut self, text: &str) {
        self.dump.extend(text.as_bytes());
        self.count += 1;
    }

    fn text(&mut self, text: &'a str) {
        self.owned(text);
        self.borrowed.push(text);
    }

    fn texts<const N: usize>(&mut self, texts: [&'a str; N]) {
        texts.into_iter().for_each(|text| self.text(text));
    }

    fn may<T>(&mut self, thing: Option<T>, leaves: impl FnOnce(&mut Self, T)) {
        self.flag(thing.is_some());
        if let Some(thing) = thing {
            leaves(self, thing);
        }
    }

    fn option_texts<const N: usize>(&mut self, texts: [Option<&'a str>; N]) {
        texts.into_iter().for_each(|text| self.may(text, Self::text));
    }

    fn list<T>(&mut self, items: &'a [T], mut leaves: impl FnMut(&mut Self, &'a T)) {
        self.number(items.len() as u32);
        items.iter().for_each(|item| leaves(self, item));
    }

    fn mapping(&mut self, mapping: &'a SqlMapping) {
        match mapping {
            SqlMapping::As(sql) => self.sql_as(sql),
            SqlMapping::Composite => self.tag(COMPOSITE),
            SqlMapping::Skip => self.tag(SKIP),
            SqlMapping::Array(SqlArrayMapping::As(sql)) => {
                self.tag(ARRAY);
                self.sql_as(sql);
            }
            SqlMapping::Array(SqlArrayMapping::Composite) => {
                [ARRAY, COMPOSITE].into_iter().for_each(|tag| self.tag(tag))
            }
        }
    }

    fn sql_as(&mut self, sql: &str) {
        self.tag(AS);
        self.owned(sql);
    }

    fn result<T, E>(
        &mut self,
        result: &'a Result<T, E>,
        good: impl FnOnce(&mut Self, &'a T),
        bad: impl FnOnce(&mut Self, &'a E),
    ) {
        match result {
            Ok(thing) => {
                self.tag(s::RESULT_OK);
                good(self, thing);
            }
            Err(error) => {
                self.tag(s::RESULT_ERR);
                bad(self, error);
            }
        }
    }

    fn argument_error(&mut self, error: &ArgumentError) {
        self.tag(match error {
            ArgumentError::SetOf => s::ARG_ERROR_SET_OF,
            ArgumentError::Table => s::ARG_ERROR_TABLE,
            ArgumentError::NestedArray => s::ARG_ERROR_NESTED_ARRAY,
            ArgumentError::BareU8 => s::ARG_ERROR_BARE_U8,
            ArgumentError::SkipInArray => s::ARG_ERROR_SKIP_IN_ARRAY,
            ArgumentError::Datum => s::ARG_ERROR_DATUM,
            ArgumentError::NotValidAsArgument(_) => s::ARG_ERROR_NOT_VALID,
        });
        if let ArgumentError::NotValidAsArgument(name) = error {
            self.owned(name);
        }
    }

    fn returns_error(&mut self, error: &ReturnsError) {
        self.tag(match error {
            ReturnsError::NestedSetOf => s::RETURNS_ERROR_NESTED_SET_OF,
            ReturnsError::NestedTable => s::RETURNS_ERROR_NESTED_TABLE,
            ReturnsError::NestedArray => s::RETURNS_ERROR_NESTED_ARRAY,
            ReturnsError::SetOfContainingTable => s::RETURNS_ERROR_SET_OF_CONTAINING_TABLE,
            ReturnsError::TableContainingSetOf => s::RETURNS_ERROR_TABLE_CONTAINING_SET_OF,
            ReturnsError::SetOfInArray => s::RETURNS_ERROR_SET_OF_IN_ARRAY,
            ReturnsError::TableInArray => s::RETURNS_ERROR_TABLE_IN_ARRAY,
            ReturnsError::BareU8 => s::RETURNS_ERROR_BARE_U8,
            ReturnsError::SkipInArray => s::RETURNS_ERROR_SKIP_IN_ARRAY,
            ReturnsError::Datum => s::RETURNS_ERROR_DATUM,
        });
    }

    fn returns(&mut self, returns: &'a Returns) {
        match returns {
            Returns::One(mapping) => {
                self.tag(s::RETURNS_ONE);
                self.mapping(mapping);
            }
            Returns::SetOf(mapping) => {
                self.tag(s::RETURNS_SET_OF);
                self.mapping(mapping);
            }
            Returns::Table(mappings) => {
                self.tag(s::RETURNS_TABLE);
                self.list(mappings, Self::mapping);
            }
        }
    }

    fn metadata(&mut self, metadata: &'a FunctionMetadataTypeEntity<'a>) {
        self.may(metadata.resolution, |leaves, resolution| {
            leaves.text(resolution.type_ident);
            leaves.tag(match resolution.type_origin {
                TypeOrigin::ThisExtension => s::TYPE_ORIGIN_THIS_EXTENSION,
                TypeOrigin::External => s::TYPE_ORIGIN_EXTERNAL,
            });
        });
        self.result(&metadata.argument_sql, Self::mapping, Self::argument_error);
        self.result(&metadata.return_sql, Self::returns, Self::returns_error);
    }

    fn used_type(&mut self, used: &'a UsedTypeEntity<'a>) {
        self.texts([used.ty_source, used.full_path]);
        self.may(used.composite_type, Self::text);
        self.flag(used.variadic);
        self.may(used.default, Self::text);
        self.flag(used.optional);
        self.metadata(&used.metadata);
    }

    fn aggregate_type(&mut self, item: &'a AggregateTypeEntity<'a>) {
        self.may(item.name, Self::text);
        self.used_type(&item.used_ty);
    }

    fn function_return(&mut self, value: &'a PgExternReturnEntity<'a>) {
        match value {
            PgExternReturnEntity::None => self.tag(s::EXTERN_RET_NONE),
            PgExternReturnEntity::Type { ty } => {
                self.tag(s::EXTERN_RET_TYPE);
                self.used_type(ty);
            }
            PgExternReturnEntity::SetOf { ty } => {
                self.tag(s::EXTERN_RET_SET_OF);
                self.used_type(ty);
            }
            PgExternReturnEntity::Iterated { tys } => {
                self.tag(s::EXTERN_RET_ITERATED);
                self.list(tys, |leaves, item| {
                    leaves.may(item.name, Self::text);
                    leaves.used_type(&item.ty);
                });
            }
            PgExternReturnEntity::Trigger => self.tag(s::EXTERN_RET_TRIGGER),
        }
    }

    fn positioning_ref(&mut self, positioning: &PositioningRef) {
        let (tag, text) = match positioning {
            PositioningRef::FullPath(text) => (s::POSITIONING_REF_FULL_PATH, text),
            PositioningRef::Name(text) => (s::POSITIONING_REF_NAME, text),
        };
        self.tag(tag);
        self.owned(text);
    }

    fn attribute(&mut self, attribute: &'a ExternArgs) {
        self.tag(match attribute {
            ExternArgs::CreateOrReplace => s::EXTERN_ARG_CREATE_OR_REPLACE,
            ExternArgs::Immutable => s::EXTERN_ARG_IMMUTABLE,
            ExternArgs::Strict => s::EXTERN_ARG_STRICT,
            ExternArgs::Stable => s::EXTERN_ARG_STABLE,
            ExternArgs::Volatile => s::EXTERN_ARG_VOLATILE,
            ExternArgs::Raw => s::EXTERN_ARG_RAW,
            ExternArgs::NoGuard => s::EXTERN_ARG_NO_GUARD,
            ExternArgs::SecurityDefiner => s::EXTERN_ARG_SECURITY_DEFINER,
            ExternArgs::SecurityInvoker => s::EXTERN_ARG_SECURITY_INVOKER,
            ExternArgs::ParallelSafe => s::EXTERN_ARG_PARALLEL_SAFE,
            ExternArgs::ParallelUnsafe => s::EXTERN_ARG_PARALLEL_UNSAFE,
            ExternArgs::ParallelRestricted => s::EXTERN_ARG_PARALLEL_RESTRICTED,
            ExternArgs::ShouldPanic(_) => s::EXTERN_ARG_SHOULD_PANIC,
            ExternArgs::Schema(_) => s::EXTERN_ARG_SCHEMA,
            ExternArgs::Support(_) => s::EXTERN_ARG_SUPPORT,
            ExternArgs::Name(_) => s::EXTERN_ARG_NAME,
            ExternArgs::Cost(_) => s::EXTERN_ARG_COST,
            ExternArgs::Requires(_) => s::EXTERN_ARG_REQUIRES,
        });
        match attribute {
            ExternArgs::ShouldPanic(text)
            | ExternArgs::Schema(text)
            | ExternArgs::Name(text)
            | ExternArgs::Cost(text) => self.owned(text),
            ExternArgs::Support(positioning) => self.positioning_ref(positioning),
            ExternArgs::Requires(items) => self.list(items, Self::positioning_ref),
            _ => {}
        }
    }

    fn operator(&mut self, operator: &'a PgOperatorEntity<'a>) {
        let PgOperatorEntity { opname, commutator, negator, restrict, join, hashes, merges } = operator;
        self.option_texts([*opname, *commutator, *negator, *restrict, *join]);
        self.flag(*hashes);
        self.flag(*merges);
    }

    fn cast(&mut self, cast: &PgCastEntity) {
        self.tag(match cast {
            PgCastEntity::Default => s::OPERATOR_CAST_DEFAULT,
            PgCastEntity::Assignment => s::OPERATOR_CAST_ASSIGNMENT,
            PgCastEntity::Implicit => s::OPERATOR_CAST_IMPLICIT,
        });
    }

    fn modify(&mut self, modify: FinalizeModify) {
        self.tag(match modify {
            FinalizeModify::ReadOnly => s::AGGREGATE_FINALIZE_READ_ONLY,
            FinalizeModify::Shareable => s::AGGREGATE_FINALIZE_SHAREABLE,
            FinalizeModify::ReadWrite => s::AGGREGATE_FINALIZE_READ_WRITE,
        });
    }

    fn parallel(&mut self, parallel: ParallelOption) {
        self.tag(match parallel {
            ParallelOption::Safe => s::AGGREGATE_PARALLEL_SAFE,
            ParallelOption::Restricted => s::AGGREGATE_PARALLEL_RESTRICTED,
            ParallelOption::Unsafe => s::AGGREGATE_PARALLEL_UNSAFE,
        });
    }

    fn to_sql(&mut self, config: &'a ToSqlConfigEntity<'a>) {
        self.flag(config.enabled);
        self.may(config.content, Self::text);
    }

    /// The SQL name of a function is no leaf.
    fn declaration(&mut self, declared: &SqlDeclaredEntity) {
        let (kind, name, type_ident, sql) = ExtensionSql::declared_parts(declared);
        self.tag(kind);
        self.owned(name);
        if let Some(type_ident) = type_ident {
            self.owned(type_ident);
            self.tag(s::RESULT_OK);
            self.sql_as(sql);
        }
    }

    pub fn entity(&mut self, entity: &'a SqlGraphEntity<'a>) {
        match entity {
            SqlGraphEntity::Schema(entity) => {
                self.tag(s::ENTITY_SCHEMA);
                self.texts([entity.module_path, entity.name, entity.file]);
                self.number(entity.line);
            }
            SqlGraphEntity::CustomSql(entity) => {
                self.tag(s::ENTITY_CUSTOM_SQL);
                self.texts([entity.sql, entity.module_path, entity.full_path, entity.file]);
                self.number(entity.line);
                self.text(entity.name);
                self.flag(entity.bootstrap);
                self.flag(entity.finalize);
                self.list(&entity.requires, Self::positioning_ref);
                self.list(&entity.creates, Self::declaration);
            }
            SqlGraphEntity::Function(entity) => self.function(entity),
            SqlGraphEntity::Type(entity) => {
                self.tag(s::ENTITY_TYPE);
                self.texts([entity.name, entity.file]);
                self.number(entity.line);
                self.texts([entity.module_path, entity.full_path, entity.type_ident]);
                self.texts([entity.in_fn_path, entity.out_fn_path]);
                self.option_texts([entity.receive_fn_path, entity.send_fn_path]);
                self.to_sql(&entity.to_sql_config);
                self.may(entity.alignment, |leaves, alignment| leaves.number(alignment as u32));
            }
            SqlGraphEntity::Enum(entity) => {
                self.tag(s::ENTITY_ENUM);
                self.texts([entity.name, entity.file]);
                self.number(entity.line);
                self.texts([entity.module_path, entity.full_path, entity.type_ident]);
                self.list(&entity.variants, |leaves, text| leaves.text(text));
                self.to_sql(&entity.to_sql_config);
            }
            SqlGraphEntity::Ord(entity) => {
                self.tag(s::ENTITY_ORD);
                self.texts([entity.name, entity.file]);
                self.number(entity.line);
                self.texts([entity.full_path, entity.module_path, entity.type_ident]);
                self.to_sql(&entity.to_sql_config);
            }
            SqlGraphEntity::Hash(entity) => {
                self.tag(s::ENTITY_HASH);
                self.texts([entity.name, entity.file]);
                self.number(entity.line);
                self.texts([entity.full_path, entity.module_path, entity.type_ident]);
                self.to_sql(&entity.to_sql_config);
            }
            SqlGraphEntity::Aggregate(entity) => self.aggregate(entity),
            SqlGraphEntity::Trigger(entity) => {
                self.tag(s::ENTITY_TRIGGER);
                self.texts([entity.function_name, entity.file]);
                self.number(entity.line);
                self.texts([entity.module_path, entity.full_path]);
                self.to_sql(&entity.to_sql_config);
            }
            other => panic!("a section has no {other:?}"),
        }
    }

    fn function(&mut self, entity: &'a PgExternEntity<'a>) {
        self.tag(s::ENTITY_FUNCTION);
        self.texts([entity.name, entity.unaliased_name, entity.module_path, entity.full_path]);
        self.list(&entity.fn_args, |leaves, argument| {
            leaves.text(argument.pattern);
            leaves.used_type(&argument.used_ty);
        });
        self.function_return(&entity.fn_return);
        self.may(entity.schema, Self::text);
        self.text(entity.file);
        self.number(entity.line);
        self.list(&entity.extern_attrs, Self::attribute);
        self.may(entity.search_path.as_ref(), |leaves, texts| leaves.list(texts, |leaves, text| leaves.text(text)));
        self.may(entity.operator.as_ref(), Self::operator);
        self.may(entity.cast.as_ref(), Self::cast);
        self.to_sql(&entity.to_sql_config);
    }

    fn aggregate(&mut self, entity: &'a PgAggregateEntity<'a>) {
        self.tag(s::ENTITY_AGGREGATE);
        self.texts([entity.full_path, entity.module_path, entity.file]);
        self.number(entity.line);
        self.text(entity.name);
        self.flag(entity.ordered_set);
        self.list(&entity.args, Self::aggregate_type);
        self.may(entity.direct_args.as_ref(), |leaves, items| leaves.list(items, Self::aggregate_type));
        self.aggregate_type(&entity.stype);
        self.text(entity.sfunc);
        self.may(entity.finalfunc, Self::text);
        self.may(entity.finalfunc_modify, Self::modify);
        self.option_texts([entity.combinefunc, entity.serialfunc, entity.deserialfunc]);
        self.option_texts([entity.initcond, entity.msfunc, entity.minvfunc]);
        self.may(entity.mstype.as_ref(), Self::used_type);
        self.may(entity.mfinalfunc, Self::text);
        self.may(entity.mfinalfunc_modify, Self::modify);
        self.option_texts([entity.minitcond, entity.sortop]);
        self.may(entity.parallel, Self::parallel);
        self.flag(entity.hypothetical);
        self.to_sql(&entity.to_sql_config);
    }
}
