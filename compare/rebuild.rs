//! The Rust's objects, made from rows and the bytes that were read. No byte is looked at but through rows and the calls for
//! texts.
use crate::comparison::UNTOUCHED;
use crate::layouts::{ARRAY, AS, COMPOSITE, NUMERIC, SKIP};
use crate::objects::Objects;
use crate::what::{part, sql_text, SqlText, What};
use pgrx_sql_entity_graph::metadata::*;
use pgrx_sql_entity_graph::section as s;
use pgrx_sql_entity_graph::*;
use pgrxsc::{Refusal, Row, Sort, SQL_TEXT_SIZE};

/// Why the rows make no object.
pub type Built<T> = Result<T, String>;

/// How often each call was made.
#[derive(Clone, Copy, Default)]
pub struct Calls {
    pub row_texts: u64,
    pub sql_names: u64,
    pub sql_texts_in_section: u64,
    pub sql_texts_in_buffer: u64,
    pub sql_text_refusals: u64,
}

/// The rows of a reading, and how many of them are used up.
struct Rows<'a, 'b> {
    bytes: &'a [u8],
    rows: &'b [Row],
    calls: Calls,
    used: usize,
}

/// The objects that the rows make; all rows must be used up.
pub fn objects<'a>(what: What, bytes: &'a [u8], rows: &[Row], calls: &mut Calls) -> Built<Objects<'a>> {
    let mut rows = Rows { bytes, rows, calls: *calls, used: 0 };
    let objects = match what {
        What::Section | What::Payload => {
            let mut entities = Vec::new();
            while rows.left() > 0 {
                entities.push(rows.entity()?);
            }
            Objects::Entities(entities)
        }
        What::Metadata => Objects::Metadata(rows.metadata()?),
        What::Mapping => Objects::Mapping(rows.mapping()?),
    };
    *calls = rows.calls;
    match rows.left() {
        0 => Ok(objects),
        left => Err(format!("{left} rows are left")),
    }
}

impl<'a, 'b> Rows<'a, 'b> {
    fn left(&self) -> usize {
        self.rows.len() - self.used
    }

    /// The next row, which must be of that sort.
    fn row(&mut self, sort: Sort) -> Built<Row> {
        let row = *self.rows.get(self.used).ok_or("a row is missing")?;
        if row.sort != sort {
            return Err(format!("row {} is {row:?}, and not a {sort:?}", self.used));
        }
        self.used += 1;
        Ok(row)
    }

    fn tag(&mut self) -> Built<u8> {
        self.row(Sort::Tag)?.value.try_into().map_err(|_| "a tag above 255".to_string())
    }

    fn flag(&mut self) -> Built<bool> {
        match self.row(Sort::Flag)?.value {
            0 => Ok(false),
            1 => Ok(true),
            value => Err(format!("a flag of {value}")),
        }
    }

    fn number(&mut self) -> Built<u32> {
        Ok(self.row(Sort::Number)?.value)
    }

    fn row_text(&mut self, row: Row) -> Built<&'a str> {
        self.calls.row_texts += 1;
        match pgrxsc::row_text(self.bytes, row) {
            Ok(text) if part(self.bytes, text) == (row.offset as usize, row.value as usize) => Ok(text),
            other => Err(format!("the text of {row:?} is {other:?}")),
        }
    }

    fn text(&mut self) -> Built<&'a str> {
        let row = self.row(Sort::Text)?;
        self.row_text(row)
    }

    fn string(&mut self) -> Built<String> {
        self.text().map(String::from)
    }

    fn may<T>(&mut self, thing: impl FnOnce(&mut Self) -> Built<T>) -> Built<Option<T>> {
        if self.flag()? {
            thing(self).map(Some)
        } else {
            Ok(None)
        }
    }

    fn option_text(&mut self) -> Built<Option<&'a str>> {
        self.may(Self::text)
    }

    fn list<T>(&mut self, mut item: impl FnMut(&mut Self) -> Built<T>) -> Built<Vec<T>> {
        let count = self.row(Sort::Count)?.value;
        (0..count).map(|_| item(self)).collect()
    }

    /// Where the SQL text of the mapping whose tag stands at that offset is, and the buffer.
    fn sql_text(&self, offset: u32) -> (Result<SqlText, Refusal>, [u8; SQL_TEXT_SIZE]) {
        let mut buffer = [UNTOUCHED; SQL_TEXT_SIZE];
        (sql_text(self.bytes, offset, &mut buffer), buffer)
    }

    /// A mapping without SQL text: 10 at its offset, and nothing is stored.
    fn no_sql_text(&mut self, offset: u32) -> Built<()> {
        self.calls.sql_text_refusals += 1;
        let answer = self.sql_text(offset);
        match answer == (Err(Refusal::new(10, offset as usize)), [UNTOUCHED; SQL_TEXT_SIZE]) {
            true => Ok(()),
            false => Err(format!("no SQL text at {offset} with {answer:?}")),
        }
    }

    /// The SQL text of an As, by its row and by its offset in turn.
    fn sql_as(&mut self, offset: u32) -> Built<String> {
        let row = self.row(Sort::Text)?;
        if self.used % 2 == 0 {
            return self.row_text(row).map(String::from);
        }
        self.calls.sql_texts_in_section += 1;
        let (start, len) = (row.offset as usize, row.value as usize);
        let answer = self.sql_text(offset);
        if answer != (Ok(SqlText::Bytes((start, len))), [UNTOUCHED; SQL_TEXT_SIZE]) {
            return Err(format!("the SQL text at {offset} with {answer:?}"));
        }
        let text = std::str::from_utf8(&self.bytes[start..start + len]);
        text.map(String::from).map_err(|_| format!("the SQL text at {offset} is no text"))
    }

    /// The SQL text of a Numeric, whose digits must be those of the rows.
    fn sql_numeric(&mut self, offset: u32) -> Built<String> {
        let rows = match self.numeric()? {
            [None, _] => vec![],
            [Some(precision), None] => vec![precision],
            [Some(precision), Some(scale)] => vec![precision, scale],
        };
        self.calls.sql_texts_in_buffer += 1;
        let (text, buffer) = self.sql_text(offset);
        let Ok(SqlText::Buffer((0, len @ 0..=SQL_TEXT_SIZE))) = text else {
            return Err(format!("the SQL text at {offset} with {text:?}"));
        };
        let (text, after) = buffer.split_at(len);
        if after.iter().any(|&byte| byte != UNTOUCHED) {
            return Err(format!("the buffer changed after the SQL text at {offset}"));
        }
        let text = String::from_utf8(text.to_vec()).map_err(|_| "no text in the buffer")?;
        let digits = text.split(|c: char| !c.is_ascii_digit()).filter_map(|number| number.parse::<u32>().ok());
        if !digits.eq(rows.iter().copied()) {
            return Err(format!("the SQL text at {offset} is {text}, the rows have {rows:?}"));
        }
        Ok(text)
    }

    fn numeric(&mut self) -> Built<[Option<u32>; 2]> {
        let mut half = || Ok::<_, String>((self.flag()?, self.number()?));
        let ((precise, precision), (scaled, scale)) = (half()?, half()?);
        Ok([precise.then_some(precision), scaled.then_some(scale)])
    }

    fn mapping(&mut self) -> Built<SqlMapping> {
        let Row { offset, value: tag, .. } = self.row(Sort::Tag)?;
        match tag as u8 {
            AS => self.sql_as(offset).map(SqlMapping::As),
            NUMERIC => self.sql_numeric(offset).map(SqlMapping::As),
            other => {
                self.no_sql_text(offset)?;
                match other {
                    ARRAY => self.array_mapping().map(SqlMapping::Array),
                    COMPOSITE => Ok(SqlMapping::Composite),
                    SKIP => Ok(SqlMapping::Skip),
                    _ => Err(format!("a mapping {other}")),
                }
            }
        }
    }

    /// An array's mapping. Its bytes are those of a mapping too, so its SQL text can be asked for.
    fn array_mapping(&mut self) -> Built<SqlArrayMapping> {
        let Row { offset, value: tag, .. } = self.row(Sort::Tag)?;
        match tag as u8 {
            AS => self.sql_as(offset).map(SqlArrayMapping::As),
            NUMERIC => self.sql_numeric(offset).map(SqlArrayMapping::As),
            COMPOSITE => Ok(SqlArrayMapping::Composite),
            other => Err(format!("an array's mapping {other}")),
        }
    }

    fn returns(&mut self) -> Built<Returns> {
        match self.tag()? {
            s::RETURNS_ONE => self.mapping().map(Returns::One),
            s::RETURNS_SET_OF => self.mapping().map(Returns::SetOf),
            s::RETURNS_TABLE => self.list(Self::mapping).map(Returns::Table),
            other => Err(format!("a return value {other}")),
        }
    }

    /// A result: either of two things.
    fn result<T, E>(
        &mut self,
        good: impl FnOnce(&mut Self) -> Built<T>,
        bad: impl FnOnce(&mut Self) -> Built<E>,
    ) -> Built<Result<T, E>> {
        match self.tag()? {
            s::RESULT_OK => good(self).map(Ok),
            s::RESULT_ERR => bad(self).map(Err),
            other => Err(format!("a result {other}")),
        }
    }

    fn argument_error(&mut self) -> Built<ArgumentError> {
        use ArgumentError::*;
        let plain = [SetOf, Table, NestedArray, BareU8, SkipInArray, Datum];
        match self.tag()? {
            s::ARG_ERROR_NOT_VALID => Ok(NotValidAsArgument(self.string()?.leak())),
            tag => plain.get(tag.wrapping_sub(1) as usize).copied().ok_or(format!("an argument's error {tag}")),
        }
    }

    fn returns_error(&mut self) -> Built<ReturnsError> {
        use ReturnsError::*;
        let plain = [
            NestedSetOf,
            NestedTable,
            NestedArray,
            SetOfContainingTable,
            TableContainingSetOf,
            SetOfInArray,
            TableInArray,
            BareU8,
            SkipInArray,
            Datum,
        ];
        let tag = self.tag()?;
        plain.get(tag.wrapping_sub(1) as usize).copied().ok_or(format!("a return value's error {tag}"))
    }

    fn resolution(&mut self) -> Built<Option<(&'a str, TypeOrigin)>> {
        self.may(|rows| {
            let type_ident = rows.text()?;
            match rows.tag()? {
                s::TYPE_ORIGIN_THIS_EXTENSION => Ok((type_ident, TypeOrigin::ThisExtension)),
                s::TYPE_ORIGIN_EXTERNAL => Ok((type_ident, TypeOrigin::External)),
                other => Err(format!("a type's origin {other}")),
            }
        })
    }

    fn metadata(&mut self) -> Built<FunctionMetadataTypeEntity<'a>> {
        let resolution = self.resolution()?;
        Ok(FunctionMetadataTypeEntity {
            resolution: resolution
                .map(|(type_ident, type_origin)| FunctionMetadataTypeResolutionEntity { type_ident, type_origin }),
            argument_sql: self.result(Self::mapping, Self::argument_error)?,
            return_sql: self.result(Self::returns, Self::returns_error)?,
        })
    }

    fn used_type(&mut self) -> Built<UsedTypeEntity<'a>> {
        Ok(UsedTypeEntity {
            ty_source: self.text()?,
            full_path: self.text()?,
            composite_type: self.option_text()?,
            variadic: self.flag()?,
            default: self.option_text()?,
            optional: self.flag()?,
            metadata: self.metadata()?,
        })
    }

    fn argument(&mut self) -> Built<PgExternArgumentEntity<'a>> {
        Ok(PgExternArgumentEntity { pattern: self.text()?, used_ty: self.used_type()? })
    }

    fn iterated(&mut self) -> Built<PgExternReturnEntityIteratedItem<'a>> {
        Ok(PgExternReturnEntityIteratedItem { name: self.option_text()?, ty: self.used_type()? })
    }

    fn aggregate_type(&mut self) -> Built<AggregateTypeEntity<'a>> {
        Ok(AggregateTypeEntity { name: self.option_text()?, used_ty: self.used_type()? })
    }

    fn function_return(&mut self) -> Built<PgExternReturnEntity<'a>> {
        match self.tag()? {
            s::EXTERN_RET_NONE => Ok(PgExternReturnEntity::None),
            s::EXTERN_RET_TYPE => Ok(PgExternReturnEntity::Type { ty: self.used_type()? }),
            s::EXTERN_RET_SET_OF => Ok(PgExternReturnEntity::SetOf { ty: self.used_type()? }),
            s::EXTERN_RET_ITERATED => Ok(PgExternReturnEntity::Iterated { tys: self.list(Self::iterated)? }),
            s::EXTERN_RET_TRIGGER => Ok(PgExternReturnEntity::Trigger),
            other => Err(format!("a function's return {other}")),
        }
    }

    fn positioning_ref(&mut self) -> Built<PositioningRef> {
        match self.tag()? {
            s::POSITIONING_REF_FULL_PATH => self.string().map(PositioningRef::FullPath),
            s::POSITIONING_REF_NAME => self.string().map(PositioningRef::Name),
            other => Err(format!("a positioning ref {other}")),
        }
    }

    fn attribute(&mut self) -> Built<ExternArgs> {
        use ExternArgs::*;
        let plain = [
            CreateOrReplace,
            Immutable,
            Strict,
            Stable,
            Volatile,
            Raw,
            NoGuard,
            SecurityDefiner,
            SecurityInvoker,
            ParallelSafe,
            ParallelUnsafe,
            ParallelRestricted,
        ];
        match self.tag()? {
            s::EXTERN_ARG_SHOULD_PANIC => self.string().map(ShouldPanic),
            s::EXTERN_ARG_SCHEMA => self.string().map(Schema),
            s::EXTERN_ARG_SUPPORT => self.positioning_ref().map(Support),
            s::EXTERN_ARG_NAME => self.string().map(Name),
            s::EXTERN_ARG_COST => self.string().map(Cost),
            s::EXTERN_ARG_REQUIRES => self.list(Self::positioning_ref).map(Requires),
            tag => plain.get(tag.wrapping_sub(1) as usize).cloned().ok_or(format!("an attribute {tag}")),
        }
    }

    fn operator(&mut self) -> Built<PgOperatorEntity<'a>> {
        Ok(PgOperatorEntity {
            opname: self.option_text()?,
            commutator: self.option_text()?,
            negator: self.option_text()?,
            restrict: self.option_text()?,
            join: self.option_text()?,
            hashes: self.flag()?,
            merges: self.flag()?,
        })
    }

    fn cast(&mut self) -> Built<PgCastEntity> {
        match self.tag()? {
            s::OPERATOR_CAST_DEFAULT => Ok(PgCastEntity::Default),
            s::OPERATOR_CAST_ASSIGNMENT => Ok(PgCastEntity::Assignment),
            s::OPERATOR_CAST_IMPLICIT => Ok(PgCastEntity::Implicit),
            other => Err(format!("a cast {other}")),
        }
    }

    fn modify(&mut self) -> Built<FinalizeModify> {
        match self.tag()? {
            s::AGGREGATE_FINALIZE_READ_ONLY => Ok(FinalizeModify::ReadOnly),
            s::AGGREGATE_FINALIZE_SHAREABLE => Ok(FinalizeModify::Shareable),
            s::AGGREGATE_FINALIZE_READ_WRITE => Ok(FinalizeModify::ReadWrite),
            other => Err(format!("a modification {other}")),
        }
    }

    fn parallel(&mut self) -> Built<ParallelOption> {
        match self.tag()? {
            s::AGGREGATE_PARALLEL_SAFE => Ok(ParallelOption::Safe),
            s::AGGREGATE_PARALLEL_RESTRICTED => Ok(ParallelOption::Restricted),
            s::AGGREGATE_PARALLEL_UNSAFE => Ok(ParallelOption::Unsafe),
            other => Err(format!("a parallel option {other}")),
        }
    }

    fn to_sql(&mut self) -> Built<ToSqlConfigEntity<'a>> {
        Ok(ToSqlConfigEntity { enabled: self.flag()?, content: self.option_text()? })
    }

    fn declaration(&mut self) -> Built<SqlDeclaredEntity> {
        let kind = self.tag()?;
        let row = self.row(Sort::Text)?;
        let name = self.row_text(row)?.to_string();
        if kind == s::SQL_DECLARED_FUNCTION {
            self.calls.sql_names += 1;
            let sql = pgrxsc::sql_name(self.bytes, row).map_err(|refusal| format!("an SQL name with {refusal:?}"))?;
            return Ok(ExtensionSql::declared_function(name, sql.to_string()));
        }
        let type_ident = self.string()?;
        let sql = match (self.tag()?, self.mapping()?) {
            (s::RESULT_OK, SqlMapping::As(sql)) => sql,
            other => return Err(format!("a declaration with {other:?}")),
        };
        match kind {
            s::SQL_DECLARED_TYPE => Ok(ExtensionSql::declared_type(name, type_ident, sql)),
            s::SQL_DECLARED_ENUM => Ok(ExtensionSql::declared_enum(name, type_ident, sql)),
            other => Err(format!("a declaration {other}")),
        }
    }

    fn entity(&mut self) -> Built<SqlGraphEntity<'a>> {
        match self.row(Sort::Kind)?.value as u8 {
            s::ENTITY_SCHEMA => self.schema().map(SqlGraphEntity::Schema),
            s::ENTITY_CUSTOM_SQL => self.custom_sql().map(SqlGraphEntity::CustomSql),
            s::ENTITY_FUNCTION => self.function().map(SqlGraphEntity::Function),
            s::ENTITY_TYPE => self.postgres_type().map(SqlGraphEntity::Type),
            s::ENTITY_ENUM => self.postgres_enum().map(SqlGraphEntity::Enum),
            s::ENTITY_ORD => self.ord().map(SqlGraphEntity::Ord),
            s::ENTITY_HASH => self.hash().map(SqlGraphEntity::Hash),
            s::ENTITY_AGGREGATE => self.aggregate().map(SqlGraphEntity::Aggregate),
            s::ENTITY_TRIGGER => self.trigger().map(SqlGraphEntity::Trigger),
            other => Err(format!("an entity {other}")),
        }
    }

    fn schema(&mut self) -> Built<SchemaEntity<'a>> {
        Ok(SchemaEntity { module_path: self.text()?, name: self.text()?, file: self.text()?, line: self.number()? })
    }

    fn custom_sql(&mut self) -> Built<ExtensionSqlEntity<'a>> {
        Ok(ExtensionSqlEntity {
            sql: self.text()?,
            module_path: self.text()?,
            full_path: self.text()?,
            file: self.text()?,
            line: self.number()?,
            name: self.text()?,
            bootstrap: self.flag()?,
            finalize: self.flag()?,
            requires: self.list(Self::positioning_ref)?,
            creates: self.list(Self::declaration)?,
        })
    }

    fn function(&mut self) -> Built<PgExternEntity<'a>> {
        Ok(PgExternEntity {
            name: self.text()?,
            unaliased_name: self.text()?,
            module_path: self.text()?,
            full_path: self.text()?,
            fn_args: self.list(Self::argument)?,
            fn_return: self.function_return()?,
            schema: self.option_text()?,
            file: self.text()?,
            line: self.number()?,
            extern_attrs: self.list(Self::attribute)?,
            search_path: self.may(|rows| rows.list(Self::text))?,
            operator: self.may(Self::operator)?,
            cast: self.may(Self::cast)?,
            to_sql_config: self.to_sql()?,
        })
    }

    fn postgres_type(&mut self) -> Built<PostgresTypeEntity<'a>> {
        Ok(PostgresTypeEntity {
            name: self.text()?,
            file: self.text()?,
            line: self.number()?,
            module_path: self.text()?,
            full_path: self.text()?,
            type_ident: self.text()?,
            in_fn_path: self.text()?,
            out_fn_path: self.text()?,
            receive_fn_path: self.option_text()?,
            send_fn_path: self.option_text()?,
            to_sql_config: self.to_sql()?,
            alignment: self.may(Self::number)?.map(|alignment| alignment as usize),
        })
    }

    fn postgres_enum(&mut self) -> Built<PostgresEnumEntity<'a>> {
        Ok(PostgresEnumEntity {
            name: self.text()?,
            file: self.text()?,
            line: self.number()?,
            module_path: self.text()?,
            full_path: self.text()?,
            type_ident: self.text()?,
            variants: self.list(Self::text)?,
            to_sql_config: self.to_sql()?,
        })
    }

    fn ord(&mut self) -> Built<PostgresOrdEntity<'a>> {
        Ok(PostgresOrdEntity {
            name: self.text()?,
            file: self.text()?,
            line: self.number()?,
            full_path: self.text()?,
            module_path: self.text()?,
            type_ident: self.text()?,
            to_sql_config: self.to_sql()?,
        })
    }

    fn hash(&mut self) -> Built<PostgresHashEntity<'a>> {
        Ok(PostgresHashEntity {
            name: self.text()?,
            file: self.text()?,
            line: self.number()?,
            full_path: self.text()?,
            module_path: self.text()?,
            type_ident: self.text()?,
            to_sql_config: self.to_sql()?,
        })
    }

    fn aggregate(&mut self) -> Built<PgAggregateEntity<'a>> {
        Ok(PgAggregateEntity {
            full_path: self.text()?,
            module_path: self.text()?,
            file: self.text()?,
            line: self.number()?,
            name: self.text()?,
            ordered_set: self.flag()?,
            args: self.list(Self::aggregate_type)?,
            direct_args: self.may(|rows| rows.list(Self::aggregate_type))?,
            stype: self.aggregate_type()?,
            sfunc: self.text()?,
            finalfunc: self.option_text()?,
            finalfunc_modify: self.may(Self::modify)?,
            combinefunc: self.option_text()?,
            serialfunc: self.option_text()?,
            deserialfunc: self.option_text()?,
            initcond: self.option_text()?,
            msfunc: self.option_text()?,
            minvfunc: self.option_text()?,
            mstype: self.may(Self::used_type)?,
            mfinalfunc: self.option_text()?,
            mfinalfunc_modify: self.may(Self::modify)?,
            minitcond: self.option_text()?,
            sortop: self.option_text()?,
            parallel: self.may(Self::parallel)?,
            hypothetical: self.flag()?,
            to_sql_config: self.to_sql()?,
        })
    }

    fn trigger(&mut self) -> Built<PgTriggerEntity<'a>> {
        Ok(PgTriggerEntity {
            function_name: self.text()?,
            file: self.text()?,
            line: self.number()?,
            module_path: self.text()?,
            full_path: self.text()?,
            to_sql_config: self.to_sql()?,
        })
    }
}
