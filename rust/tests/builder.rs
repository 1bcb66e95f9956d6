//! Entities that are built, written and read again.

mod common;

use common::{entry, number, rows as read_rows, text};
use pgrxsc::builder::{
    Aggregate, AggregateType, Argument, ArgumentError, Attribute, Builder, Cast, CustomSql,
    Declaration, FinalizeModify, Function, Metadata, Operator, ParallelOption, Part,
    PositioningRef, PostgresEnum, PostgresHash, PostgresOrd, PostgresType, Resolution, Return,
    Returns, ReturnsError, Schema, SqlArrayMapping, SqlMapping, ToSqlConfig, Trigger, TypeOrigin,
    UsedType,
};
use pgrxsc::{
    mapping_len, metadata_len, payload_len, row_text, section_len, EntityKind, Reading, Refusal,
    Row, Sort, Table, LIMIT, ROW_WIDTH,
};

const FOURTEEN: Refusal = Refusal::new(14, 0);

fn built(part: impl Part) -> Builder {
    let mut builder = Builder::new();
    builder.add(part);
    builder
}

/// The texts of a builder's rows.
fn texts(builder: &Builder) -> Vec<&str> {
    let rows = builder.rows().chunks_exact(ROW_WIDTH);
    let rows = rows.map(|row| Row::from_numbers(row.try_into().unwrap()).unwrap());
    rows.filter(|row| row.sort == Sort::Text)
        .map(|row| row_text(builder.lent_text(), row).unwrap())
        .collect()
}

/// Asserts that the reading has the builder's rows, but for their offsets, and the same texts.
fn same(builder: &Builder, reading: Reading) {
    let rows = builder.rows().chunks_exact(ROW_WIDTH);
    let rows: Vec<_> = rows.map(|row| (row[0], row[2])).collect();
    let read: Vec<_> = read_rows(reading)
        .into_iter()
        .map(|(sort, _, value)| (sort, value))
        .collect();
    assert_eq!(read, rows);
    assert_eq!(reading.texts().collect::<Vec<_>>(), texts(builder));
}

/// Asserts that an entity is written as this payload, and as a section of one entry, and that both
/// are read as what was built.
fn written(entity: impl Part, kind: EntityKind, expected: &[Vec<u8>]) {
    let builder = built(entity);
    let payload = builder.to_payload().unwrap();
    assert_eq!(payload, expected.concat(), "{kind:?}");
    let section = builder.to_section().unwrap();
    assert_eq!(section, entry(&payload));
    assert_eq!(
        payload_len(builder.rows(), builder.lent_text()),
        Ok(payload.len())
    );
    assert_eq!(
        section_len(builder.rows(), builder.lent_text()),
        Ok(section.len())
    );

    let mut table = Table::new();
    same(&builder, table.read_payload(&payload).unwrap());
    let reading = table.read_section(&section).unwrap();
    same(&builder, reading);
    let kinds: Vec<_> = reading.entities().map(|entity| entity.kind()).collect();
    assert_eq!(kinds, [kind]);
}

/// A text that can be missing, and is there.
fn some(value: &str) -> Vec<u8> {
    [vec![1], text(value)].concat()
}

/// A used type whose fields are all given, and its bytes.
fn used_type() -> (UsedType<'static>, Vec<u8>) {
    let used_type = UsedType {
        ty_source: "Vec < Dog >",
        full_path: "alloc::vec::Vec<Dog>",
        composite_type: Some("Dog"),
        variadic: true,
        default: Some("'{}'"),
        optional: true,
        metadata: Metadata {
            resolution: Some(Resolution {
                type_ident: "ext::Dog",
                type_origin: TypeOrigin::External,
            }),
            argument_sql: Ok(SqlMapping::Array(SqlArrayMapping::Composite)),
            return_sql: Err(ReturnsError::SetOfInArray),
        },
    };
    let bytes = [
        text("Vec < Dog >"),
        text("alloc::vec::Vec<Dog>"),
        some("Dog"),
        vec![1],
        some("'{}'"),
        vec![1],
        some("ext::Dog"),
        vec![2],
        vec![1, 2, 4],
        vec![2, 6],
    ];
    (used_type, bytes.concat())
}

/// The bytes of `UsedType::new("i32", "INT")`.
fn int() -> Vec<u8> {
    [
        text("i32"),
        text("i32"),
        vec![0, 0, 0, 0],
        vec![0, 1, 1],
        text("INT"),
        vec![1, 1, 1],
        text("INT"),
    ]
    .concat()
}

const INT: UsedType = UsedType::new("i32", "INT");

const TO_SQL: ToSqlConfig = ToSqlConfig {
    enabled: false,
    content: Some("-- sql"),
};

fn to_sql() -> Vec<u8> {
    [vec![0], some("-- sql")].concat()
}

#[test]
fn schema() {
    let schema = Schema {
        module_path: "ext::api",
        name: "api",
        file: "src/lib.rs",
        line: 300,
    };
    let payload = [
        vec![1],
        text("ext::api"),
        text("api"),
        text("src/lib.rs"),
        number(300),
    ];
    written(schema, EntityKind::Schema, &payload);
}

#[test]
fn custom_sql() {
    let requires = [
        PositioningRef::FullPath("ext::a"),
        PositioningRef::Name("b"),
    ];
    let numeric = SqlMapping::Numeric {
        precision: Some(10),
        scale: None,
    };
    let creates = [
        Declaration::Type {
            name: "ext::Dog",
            type_ident: "Dog",
            sql: SqlMapping::As("dog"),
        },
        Declaration::Enum {
            name: "ext::Cat",
            type_ident: "Cat",
            sql: numeric,
        },
        Declaration::Function { name: "ext::bark" },
    ];
    let custom_sql = CustomSql {
        sql: "CREATE TYPE dog;",
        module_path: "ext",
        full_path: "ext::dog_sql",
        file: "src/dog.rs",
        line: 7,
        name: "dog_sql",
        bootstrap: true,
        finalize: false,
        requires: &requires,
        creates: &creates,
    };
    let payload = [
        vec![2],
        text("CREATE TYPE dog;"),
        text("ext"),
        text("ext::dog_sql"),
        text("src/dog.rs"),
        number(7),
        text("dog_sql"),
        vec![1, 0],
        number(2),
        vec![1],
        text("ext::a"),
        vec![2],
        text("b"),
        number(3),
        vec![1],
        text("ext::Dog"),
        text("Dog"),
        vec![1, 1],
        text("dog"),
        vec![2],
        text("ext::Cat"),
        text("Cat"),
        vec![1, 3, 1],
        number(10),
        vec![0],
        number(0),
        vec![3],
        text("ext::bark"),
    ];
    written(custom_sql, EntityKind::CustomSql, &payload);
}

#[test]
fn function() {
    let (used, used_bytes) = used_type();
    let operator = Operator {
        opname: Some("+"),
        commutator: Some("-"),
        negator: None,
        restrict: Some("r"),
        join: Some("j"),
        hashes: true,
        merges: false,
    };
    let function = Function {
        name: "add",
        unaliased_name: "add_rs",
        module_path: "ext",
        full_path: "ext::add",
        fn_args: &[Argument::new("a", INT), Argument::new("b", used)],
        fn_return: Return::SetOf(INT),
        schema: Some("api"),
        file: "src/lib.rs",
        line: 9,
        extern_attrs: &[Attribute::Strict],
        search_path: Some(&["public", "api"]),
        operator: Some(operator),
        cast: Some(Cast::Implicit),
        to_sql_config: TO_SQL,
    };
    let payload = [
        vec![3],
        text("add"),
        text("add_rs"),
        text("ext"),
        text("ext::add"),
        number(2),
        text("a"),
        int(),
        text("b"),
        used_bytes,
        vec![3],
        int(),
        some("api"),
        text("src/lib.rs"),
        number(9),
        number(1),
        vec![3],
        vec![1],
        number(2),
        text("public"),
        text("api"),
        vec![1],
        some("+"),
        some("-"),
        vec![0],
        some("r"),
        some("j"),
        vec![1, 0],
        vec![1, 3],
        to_sql(),
    ];
    written(function, EntityKind::Function, &payload);
}

#[test]
fn attributes() {
    let others = [
        PositioningRef::Name("x"),
        PositioningRef::FullPath("ext::y"),
    ];
    let attributes = [
        Attribute::CreateOrReplace,
        Attribute::Immutable,
        Attribute::Strict,
        Attribute::Stable,
        Attribute::Volatile,
        Attribute::Raw,
        Attribute::NoGuard,
        Attribute::SecurityDefiner,
        Attribute::SecurityInvoker,
        Attribute::ParallelSafe,
        Attribute::ParallelUnsafe,
        Attribute::ParallelRestricted,
        Attribute::ShouldPanic("no"),
        Attribute::Schema("api"),
        Attribute::Support(PositioningRef::FullPath("ext::s")),
        Attribute::Name("n"),
        Attribute::Cost("10"),
        Attribute::Requires(&others),
    ];
    let function = Function {
        extern_attrs: &attributes,
        ..Function::default()
    };
    let payload = [
        vec![3],
        vec![0; 16],
        number(0),
        vec![1],
        vec![0],
        text(""),
        number(0),
        number(18),
        vec![1, 2, 3, 4, 5, 6, 7, 8, 9, 10, 11, 12],
        vec![13],
        text("no"),
        vec![14],
        text("api"),
        vec![15, 1],
        text("ext::s"),
        vec![16],
        text("n"),
        vec![17],
        text("10"),
        vec![18],
        number(2),
        vec![2],
        text("x"),
        vec![1],
        text("ext::y"),
        vec![0, 0, 0],
        vec![1, 0],
    ];
    written(function, EntityKind::Function, &payload);
}

#[test]
fn returns_of_functions() {
    let named = AggregateType {
        name: Some("n"),
        ..AggregateType::new(INT)
    };
    let items = [named, AggregateType::new(INT)];
    let iterated = [vec![4], number(2), some("n"), int(), vec![0], int()];
    for (fn_return, bytes) in [
        (Return::None, vec![1]),
        (Return::Type(INT), [vec![2], int()].concat()),
        (Return::SetOf(INT), [vec![3], int()].concat()),
        (Return::Iterated(&items), iterated.concat()),
        (Return::Iterated(&[]), vec![4, 0, 0, 0, 0]),
        (Return::Trigger, vec![5]),
    ] {
        let function = Function {
            fn_return,
            ..Function::default()
        };
        let payload = [vec![3], vec![0; 20], bytes, vec![0; 16], vec![1, 0]];
        written(function, EntityKind::Function, &payload);
    }
}

#[test]
fn postgres_type() {
    let mut postgres_type = PostgresType {
        name: "Dog",
        file: "src/dog.rs",
        line: 1,
        module_path: "ext",
        full_path: "ext::Dog",
        type_ident: "ident",
        in_fn_path: "ext::dog_in",
        out_fn_path: "ext::dog_out",
        receive_fn_path: Some("ext::dog_recv"),
        send_fn_path: None,
        to_sql_config: TO_SQL,
        alignment: Some(8),
    };
    let mut payload = [
        vec![4],
        text("Dog"),
        text("src/dog.rs"),
        number(1),
        text("ext"),
        text("ext::Dog"),
        text("ident"),
        text("ext::dog_in"),
        text("ext::dog_out"),
        some("ext::dog_recv"),
        vec![0],
        to_sql(),
        vec![1, 8, 0, 0, 0],
    ];
    written(postgres_type, EntityKind::Type, &payload);
    postgres_type.alignment = None;
    payload[12] = vec![0];
    written(postgres_type, EntityKind::Type, &payload);
}

#[test]
fn postgres_enum() {
    let postgres_enum = PostgresEnum {
        name: "Cat",
        file: "src/cat.rs",
        line: 2,
        module_path: "ext",
        full_path: "ext::Cat",
        type_ident: "ident",
        variants: &["A", "", "Ç"],
        to_sql_config: TO_SQL,
    };
    let payload = [
        vec![5],
        text("Cat"),
        text("src/cat.rs"),
        number(2),
        text("ext"),
        text("ext::Cat"),
        text("ident"),
        number(3),
        text("A"),
        text(""),
        text("Ç"),
        to_sql(),
    ];
    written(postgres_enum, EntityKind::Enum, &payload);
}

#[test]
fn postgres_ord_and_hash() {
    let ord = PostgresOrd {
        name: "Dog",
        file: "src/dog.rs",
        line: 3,
        full_path: "ext::Dog",
        module_path: "ext",
        type_ident: "ident",
        to_sql_config: TO_SQL,
    };
    let hash = PostgresHash {
        name: "Dog",
        file: "src/dog.rs",
        line: 3,
        full_path: "ext::Dog",
        module_path: "ext",
        type_ident: "ident",
        to_sql_config: TO_SQL,
    };
    let mut payload = [
        vec![6],
        text("Dog"),
        text("src/dog.rs"),
        number(3),
        text("ext::Dog"),
        text("ext"),
        text("ident"),
        to_sql(),
    ];
    written(ord, EntityKind::Ord, &payload);
    payload[0] = vec![7];
    written(hash, EntityKind::Hash, &payload);
}

#[test]
fn aggregate() {
    let (used, used_bytes) = used_type();
    let int_type = AggregateType::new(INT);
    let named = AggregateType {
        name: Some("state"),
        used_ty: used,
    };
    let aggregate = Aggregate {
        full_path: "ext::Sum",
        module_path: "ext",
        file: "src/sum.rs",
        line: 4,
        name: "sum",
        ordered_set: true,
        args: &[int_type, named],
        direct_args: Some(&[int_type]),
        stype: named,
        sfunc: "sfunc",
        finalfunc: Some("finalfunc"),
        finalfunc_modify: Some(FinalizeModify::Shareable),
        combinefunc: Some("combinefunc"),
        serialfunc: None,
        deserialfunc: Some("deserialfunc"),
        initcond: Some("0"),
        msfunc: Some("msfunc"),
        minvfunc: Some("minvfunc"),
        mstype: Some(INT),
        mfinalfunc: None,
        mfinalfunc_modify: Some(FinalizeModify::ReadWrite),
        minitcond: Some("1"),
        sortop: Some("<"),
        parallel: Some(ParallelOption::Unsafe),
        hypothetical: false,
        to_sql_config: TO_SQL,
    };
    let payload = [
        vec![8],
        text("ext::Sum"),
        text("ext"),
        text("src/sum.rs"),
        number(4),
        text("sum"),
        vec![1],
        number(2),
        vec![0],
        int(),
        some("state"),
        used_bytes.clone(),
        vec![1],
        number(1),
        vec![0],
        int(),
        some("state"),
        used_bytes,
        text("sfunc"),
        some("finalfunc"),
        vec![1, 2],
        some("combinefunc"),
        vec![0],
        some("deserialfunc"),
        some("0"),
        some("msfunc"),
        some("minvfunc"),
        vec![1],
        int(),
        vec![0],
        vec![1, 3],
        some("1"),
        some("<"),
        vec![1, 3],
        vec![0],
        to_sql(),
    ];
    written(aggregate, EntityKind::Aggregate, &payload);
}

#[test]
fn trigger() {
    let trigger = Trigger {
        function_name: "note",
        file: "src/note.rs",
        line: 5,
        module_path: "ext",
        full_path: "ext::note",
        to_sql_config: TO_SQL,
    };
    let payload = [
        vec![9],
        text("note"),
        text("src/note.rs"),
        number(5),
        text("ext"),
        text("ext::note"),
        to_sql(),
    ];
    written(trigger, EntityKind::Trigger, &payload);
}

/// A builder with the default of each kind, in their order.
fn defaults() -> Builder {
    let mut builder = Builder::new();
    builder
        .add(Schema::default())
        .add(CustomSql::default())
        .add(Function::default())
        .add(PostgresType::default())
        .add(PostgresEnum::default())
        .add(PostgresOrd::default())
        .add(PostgresHash::default())
        .add(Aggregate::default())
        .add(Trigger::default());
    builder
}

#[test]
fn a_section_of_all_kinds() {
    let builder = defaults();
    let section = builder.to_section().unwrap();
    let mut table = Table::new();
    let reading = table.read_section(&section).unwrap();
    same(&builder, reading);
    let kinds: Vec<_> = reading.entities().map(|entity| entity.kind()).collect();
    let all: Vec<_> = (1..=9).filter_map(EntityKind::from_number).collect();
    assert_eq!(kinds, all);
    // More than one entity is no payload.
    assert_eq!(builder.to_payload(), Err(FOURTEEN));
}

#[test]
fn records_and_mappings() {
    let mappings = [
        SqlMapping::As("INT"),
        SqlMapping::Array(SqlArrayMapping::As("INT")),
        SqlMapping::Array(SqlArrayMapping::Numeric {
            precision: Some(1),
            scale: Some(2),
        }),
        SqlMapping::Array(SqlArrayMapping::Composite),
        SqlMapping::Numeric {
            precision: None,
            scale: Some(3),
        },
        SqlMapping::Composite,
        SqlMapping::Skip,
    ];
    let errors = [
        ArgumentError::SetOf,
        ArgumentError::Table,
        ArgumentError::NestedArray,
        ArgumentError::BareU8,
        ArgumentError::SkipInArray,
        ArgumentError::Datum,
        ArgumentError::NotValidAsArgument("str"),
    ];
    let returns_errors = [
        ReturnsError::NestedSetOf,
        ReturnsError::NestedTable,
        ReturnsError::NestedArray,
        ReturnsError::SetOfContainingTable,
        ReturnsError::TableContainingSetOf,
        ReturnsError::SetOfInArray,
        ReturnsError::TableInArray,
        ReturnsError::BareU8,
        ReturnsError::SkipInArray,
        ReturnsError::Datum,
    ];
    let mut records = vec![Metadata::default()];
    records.extend(mappings.map(Metadata::new));
    records.extend(errors.map(|error| Metadata {
        argument_sql: Err(error),
        ..Metadata::default()
    }));
    let returns = mappings.map(Returns::SetOf).into_iter().map(Ok);
    let returns = returns.chain(returns_errors.map(Err));
    let returns = returns.chain([Ok(Returns::Table(&mappings)), Ok(Returns::Table(&[]))]);
    records.extend(returns.map(|return_sql| Metadata {
        resolution: Some(Resolution {
            type_ident: "ident",
            type_origin: TypeOrigin::ThisExtension,
        }),
        return_sql,
        ..Metadata::default()
    }));

    let mut table = Table::new();
    for record in records {
        let builder = built(record);
        let bytes = builder.to_metadata().unwrap();
        let len = metadata_len(builder.rows(), builder.lent_text());
        assert_eq!(len, Ok(bytes.len()));
        same(&builder, table.read_metadata(&bytes).unwrap());
        assert_eq!(builder.to_mapping(), Err(FOURTEEN));
        assert_eq!(builder.to_payload(), Err(FOURTEEN));
    }
    for mapping in mappings {
        let builder = built(mapping);
        let bytes = builder.to_mapping().unwrap();
        let len = mapping_len(builder.rows(), builder.lent_text());
        assert_eq!(len, Ok(bytes.len()));
        same(&builder, table.read_mapping(&bytes).unwrap());
        assert_eq!(builder.to_metadata(), Err(FOURTEEN));
        assert_eq!(builder.to_section(), Err(FOURTEEN));
    }
    // The first of the format's worked cases, and the tags of the last error of each side.
    assert_eq!(
        built(Metadata::default()).to_metadata().unwrap(),
        [0, 1, 5, 1, 1, 5]
    );
    let last = Metadata {
        argument_sql: Err(ArgumentError::NotValidAsArgument("")),
        return_sql: Err(ReturnsError::Datum),
        ..Metadata::default()
    };
    let last = built(last).to_metadata().unwrap();
    assert_eq!(last, [0, 2, 7, 0, 0, 0, 0, 2, 10]);
}

#[test]
fn declarations_without_sql_text() {
    for sql in [
        SqlMapping::Composite,
        SqlMapping::Skip,
        SqlMapping::Array(SqlArrayMapping::As("INT")),
    ] {
        let (name, type_ident) = ("ext::Dog", "Dog");
        for declaration in [
            Declaration::Type {
                name,
                type_ident,
                sql,
            },
            Declaration::Enum {
                name,
                type_ident,
                sql,
            },
        ] {
            let builder = built(CustomSql {
                creates: &[declaration],
                ..CustomSql::default()
            });
            assert_eq!(builder.to_payload(), Err(FOURTEEN));
            assert_eq!(builder.to_section(), Err(FOURTEEN));
        }
    }
}

#[test]
fn row_by_row() {
    let mut by_hand = Builder::new();
    by_hand
        .kind(EntityKind::Function)
        .text("name")
        .text("")
        .text("")
        .text("")
        .count(0)
        .tag(1)
        .option_text(Some("api"))
        .text("")
        .number(7)
        .list::<&str>(&[])
        .option_text(None)
        .option(None::<u32>)
        .flag(false)
        .add(ToSqlConfig::default());
    let function = built(Function {
        name: "name",
        schema: Some("api"),
        line: 7,
        ..Function::default()
    });
    assert_eq!(by_hand.rows(), function.rows());
    assert_eq!(by_hand.lent_text(), function.lent_text());
    assert_eq!(by_hand.to_payload(), function.to_payload());
}

#[test]
fn nothing() {
    let builder = Builder::new();
    for written in [
        builder.to_section(),
        builder.to_payload(),
        builder.to_metadata(),
        builder.to_mapping(),
    ] {
        assert_eq!(written, Err(FOURTEEN));
    }
    assert_eq!(format!("{builder:?}"), "Builder { rows: 0, text: 0 }");
    let builder = built(Schema {
        name: "api",
        ..Schema::default()
    });
    assert_eq!(format!("{builder:?}"), "Builder { rows: 5, text: 3 }");
}

#[test]
fn too_long() {
    let text = "a".repeat(LIMIT);
    let lens = |name_len: usize| {
        let builder = built(Schema {
            name: &text[..name_len],
            ..Schema::default()
        });
        [builder.to_payload(), builder.to_section()].map(|bytes| bytes.map(|bytes| bytes.len()))
    };
    let sixteen = Err(Refusal::new(16, 0));
    // A payload has 17 bytes beside its texts, and its entry four more.
    assert_eq!(lens(LIMIT - 21), [Ok(LIMIT - 4), Ok(LIMIT)]);
    assert_eq!(lens(LIMIT - 20), [Ok(LIMIT - 3), sixteen]);
    assert_eq!(lens(LIMIT - 17), [Ok(LIMIT), sixteen]);
    assert_eq!(lens(LIMIT - 16), [sixteen, sixteen]);
}
