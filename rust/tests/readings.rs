//! Readings: their rows, their entities and their texts.

mod common;

use common::{
    custom_sql, entry, function, hex, kept, rows, schema, sentinel, table, text, trigger,
};
use pgrxsc::builder::{
    Aggregate, Builder, CustomSql, Function, PostgresEnum, PostgresHash, PostgresOrd, PostgresType,
    Schema, Trigger,
};
use pgrxsc::{
    read_mapping, read_metadata, read_payload, read_section, table_len, EntityKind, Reading,
    Refusal, Row, Sort, Table, ROW_WIDTH, SQL_TEXT_SIZE,
};

/// A section of two schemas, with a sentinel between them and padding after them.
fn two_schemas() -> Vec<u8> {
    [
        entry(&schema("m", "one", "f.rs", 7)),
        sentinel(),
        entry(&schema("", "zwei ä", "", 1 << 31)),
        vec![0; 5],
    ]
    .concat()
}

#[test]
fn rows_of_two_schemas() {
    let section = two_schemas();
    let mut table = vec![0; table_len(&section)];
    let reading = read_section(&section, &mut table).unwrap();
    // The first payload has 25 bytes, so the second begins at 4 + 25 + 13 + 4.
    let expected = [
        (1, 4, 1),
        (6, 9, 1),
        (6, 14, 3),
        (6, 21, 4),
        (4, 25, 7),
        (1, 46, 1),
        (6, 51, 0),
        (6, 55, 7),
        (6, 66, 0),
        (4, 66, 1 << 31),
    ];
    assert_eq!(rows(reading), expected);
    let numbers: Vec<u32> = reading.rows().flat_map(Row::numbers).collect();
    assert_eq!(reading.numbers(), numbers);
    assert_eq!(reading.bytes(), section);
    assert_eq!(reading.entities().len(), 2);
}

#[test]
fn entities_group_the_rows() {
    let section = two_schemas();
    let mut table = Table::new();
    let reading = table.read_section(&section).unwrap();
    let mut entities = reading.entities();
    let first = entities.next().unwrap();
    assert_eq!(entities.len(), 1);
    let second = entities.next().unwrap();
    assert_eq!(entities.len(), 0);
    assert!(entities.next().is_none());
    assert!(entities.next().is_none());

    assert_eq!((first.kind(), first.offset()), (EntityKind::Schema, 4));
    assert_eq!(first.rows().len(), 5);
    assert_eq!(first.texts().collect::<Vec<_>>(), ["m", "one", "f.rs"]);
    assert_eq!((second.kind(), second.offset()), (EntityKind::Schema, 46));
    assert_eq!(second.texts().collect::<Vec<_>>(), ["", "zwei ä", ""]);
    assert_eq!(
        second.rows().next_back(),
        Some(Row::new(Sort::Number, 66, 1 << 31))
    );
    assert_eq!(
        [first.numbers(), second.numbers()].concat(),
        reading.numbers()
    );
}

#[test]
fn kinds_of_entities() {
    let section = [
        entry(&function("f", &[])),
        entry(&trigger("t")),
        entry(&custom_sql(&[1, 1, 0, 0, 0, 0])),
        entry(&schema("", "", "", 0)),
    ]
    .concat();
    let mut table = Table::new();
    let reading = table.read_section(&section).unwrap();
    let kinds: Vec<_> = reading.entities().map(|entity| entity.kind()).collect();
    assert_eq!(
        kinds,
        [
            EntityKind::Function,
            EntityKind::Trigger,
            EntityKind::CustomSql,
            EntityKind::Schema
        ]
    );
}

#[test]
fn rows_from_both_ends() {
    let section = two_schemas();
    let mut table = Table::new();
    let reading = table.read_section(&section).unwrap();
    let last = Row::new(Sort::Number, 66, 1 << 31);
    assert_eq!(reading.rows().next_back(), Some(last));
    assert_eq!(reading.rows().nth(9), Some(last));
    assert_eq!(reading.rows().nth(10), None);
    assert_eq!(reading.rows().nth(7), Some(Row::new(Sort::Text, 55, 7)));
    assert_eq!(
        reading.texts().rev().collect::<Vec<_>>(),
        ["", "zwei ä", "", "f.rs", "one", "m"]
    );
}

#[test]
fn text_of_a_row() {
    let section = two_schemas();
    let mut table = Table::new();
    let reading = table.read_section(&section).unwrap();
    let rows: Vec<Row> = reading.rows().collect();
    assert_eq!(reading.text(rows[2]), Ok("one"));
    assert_eq!(reading.text(rows[0]), Err(Refusal::new(15, 0)));
    let mut changed = rows[2];
    changed.value = 1000;
    assert_eq!(reading.text(changed), Err(Refusal::new(15, 0)));
}

#[test]
fn kept_name_of_a_row() {
    let long = "é".repeat(40);
    let section = entry(&schema("m", &long, "f.rs", 7));
    let mut table = Table::new();
    let reading = table.read_section(&section).unwrap();
    let rows: Vec<Row> = reading.rows().collect();
    assert_eq!(reading.kept_name(rows[1]), Ok("m"));
    // The row has the whole length.
    assert_eq!(rows[2].value, 80);
    assert_eq!(reading.text(rows[2]), Ok(&*long));
    assert_eq!(reading.kept_name(rows[2]), Ok(&long[..62]));
    assert_eq!(reading.kept_name(rows[0]), Err(Refusal::new(15, 0)));
    let mut changed = rows[2];
    changed.value = 1000;
    assert_eq!(reading.kept_name(changed), Err(Refusal::new(15, 0)));
}

/// Entities of the nine kinds, which have these names. Their other texts are given too.
fn named(names: [&str; 9]) -> [Builder; 9] {
    let (file, module_path, full_path, type_ident) = ("file", "module", "path", "ident");
    let mut builders = names.map(|_| Builder::new());
    builders[0].add(Schema {
        module_path,
        name: names[0],
        file,
        line: 1,
    });
    builders[1].add(CustomSql {
        sql: "sql",
        module_path,
        full_path,
        file,
        name: names[1],
        ..CustomSql::default()
    });
    builders[2].add(Function {
        name: names[2],
        unaliased_name: "unaliased",
        module_path,
        full_path,
        file,
        ..Function::default()
    });
    builders[3].add(PostgresType {
        name: names[3],
        file,
        module_path,
        full_path,
        type_ident,
        in_fn_path: "in",
        out_fn_path: "out",
        ..PostgresType::default()
    });
    builders[4].add(PostgresEnum {
        name: names[4],
        file,
        module_path,
        full_path,
        type_ident,
        variants: &["variant"],
        ..PostgresEnum::default()
    });
    builders[5].add(PostgresOrd {
        name: names[5],
        file,
        full_path,
        module_path,
        type_ident,
        ..PostgresOrd::default()
    });
    builders[6].add(PostgresHash {
        name: names[6],
        file,
        full_path,
        module_path,
        type_ident,
        ..PostgresHash::default()
    });
    builders[7].add(Aggregate {
        full_path,
        module_path,
        file,
        name: names[7],
        sfunc: "state",
        ..Aggregate::default()
    });
    builders[8].add(Trigger {
        function_name: names[8],
        file,
        module_path,
        full_path,
        ..Trigger::default()
    });
    builders
}

/// Names, among them of 63 bytes and more, with characters of every size at the cut.
fn some_names() -> Vec<String> {
    let mut names = vec![String::new(), "é".into(), "€𐍈".repeat(40)];
    for before in 59..=64 {
        for end in ["", "b", "é", "€", "𐍈", "éb", "€b", "𐍈b", "bcdefg"] {
            names.push(format!("{:a<before$}{end}", ""));
        }
    }
    names
}

#[test]
fn names_of_all_kinds() {
    let mut table = Table::new();
    for name in some_names() {
        for (number, builder) in (1..).zip(named([&name; 9])) {
            let payload = builder.to_payload().unwrap();
            let reading = table.read_payload(&payload).unwrap();
            let entity = reading.entities().next().unwrap();
            assert_eq!(entity.kind().number(), number);
            assert_eq!(entity.name(), name, "{number}");
            assert_eq!(entity.kept_name(), &name[..kept(&name)], "{number}");
        }
    }
}

#[test]
fn names_in_a_section() {
    let names = [1, 2, 3, 4, 5, 6, 7, 8, 9].map(|number| format!("{number}{}", "𐍈".repeat(20)));
    let entities = named([0, 1, 2, 3, 4, 5, 6, 7, 8].map(|index| &*names[index]));
    let section = entities.map(|entity| [entity.to_section().unwrap(), sentinel()].concat());
    let section = section.concat();
    let mut table = Table::new();
    let directory = table.read_directory(&section).unwrap();
    assert_eq!(directory.len(), 9);
    for (index, entity) in directory.reading().entities().enumerate() {
        let same = directory.entity(index).unwrap();
        for entity in [entity, same] {
            assert_eq!(entity.name(), names[index]);
            // A digit and 15 characters of four bytes; one more ends at byte 65.
            assert_eq!(entity.kept_name(), &names[index][..61]);
        }
    }
}

/// Names are parts of the bytes, and so outlive the table.
#[test]
fn names_outlive_the_table() {
    let section = entry(&schema("m", &"a".repeat(64), "f.rs", 7));
    let (name, kept_name) = {
        let mut table = Table::new();
        let reading = table.read_section(&section).unwrap();
        let entity = reading.entities().next().unwrap();
        (entity.name(), entity.kept_name())
    };
    assert!(std::ptr::eq(name.as_bytes(), &section[14..78]));
    assert!(std::ptr::eq(kept_name.as_bytes(), &section[14..77]));
}

#[test]
fn texts_outlive_the_table() {
    let section = two_schemas();
    let name = {
        let mut table = vec![0; table_len(&section)];
        let reading = read_section(&section, &mut table).unwrap();
        reading.texts().nth(1).unwrap()
    };
    assert_eq!(name, "one");
}

#[test]
fn one_payload() {
    let payload = schema("m", "one", "f.rs", 7);
    let mut table = Table::new();
    let reading = table.read_payload(&payload).unwrap();
    assert_eq!(
        rows(reading),
        [(1, 0, 1), (6, 5, 1), (6, 10, 3), (6, 17, 4), (4, 21, 7)]
    );
    assert_eq!(reading.entities().len(), 1);
    assert_eq!(reading.entities().next().unwrap().rows().len(), 5);

    // A sentinel alone is no entity, and neither are no bytes.
    let refusal = read_payload(&sentinel()[4..], &mut []).unwrap_err();
    assert_eq!(refusal, Refusal::new(8, 0));
    let refusal = read_payload(&[], &mut []).unwrap_err();
    assert_eq!(refusal, Refusal::new(5, 0));
}

#[test]
fn one_record() {
    // A resolution: its text, and the origin outside the extension. As an argument an error with a
    // text. Returned, a table of As and of an array of Composite.
    let record = [
        vec![1],
        text("i"),
        vec![2, 2, 7],
        text("no"),
        vec![1, 3, 2, 0, 0, 0, 1],
        text("TEXT"),
        vec![2, 4],
    ]
    .concat();
    let mut table = Table::new();
    let reading = table.read_metadata(&record).unwrap();
    assert_eq!(
        rows(reading),
        [
            (3, 0, 1),
            (6, 5, 1),
            (2, 6, 2),
            (2, 7, 2),
            (2, 8, 7),
            (6, 13, 2),
            (2, 15, 1),
            (2, 16, 3),
            (5, 17, 2),
            (2, 21, 1),
            (6, 26, 4),
            (2, 30, 2),
            (2, 31, 4)
        ]
    );
    assert_eq!(reading.texts().collect::<Vec<_>>(), ["i", "no", "TEXT"]);
    assert_eq!(reading.entities().len(), 0);
    assert!(reading.entities().next().is_none());
}

#[test]
fn one_mapping() {
    let mapping = [vec![1], text("INT")].concat();
    let mut table = Table::new();
    let reading = table.read_mapping(&mapping).unwrap();
    assert_eq!(rows(reading), [(2, 0, 1), (6, 5, 3)]);
    assert_eq!(reading.entities().len(), 0);
}

/// The rows of a reading, each as sort, offset and value with blanks between, and commas between rows.
fn listed(reading: Reading) -> String {
    let rows = rows(reading).into_iter();
    let rows = rows.map(|(sort, offset, value)| format!("{sort} {offset} {value}"));
    rows.collect::<Vec<_>>().join(", ")
}

/// A case made by a model of the format that shares nothing with the reader.
#[test]
fn a_function_of_67_rows() {
    let section = hex(
        "09000000000400000070677278e90000000308000000c3a9e697a5e69cac0a000000df990bd2a1c6b37eddb7\
         0c000000c3a97372632f6c69622e7273000000000000000003020000006c5c09000000eeb586e6a48be1b98b\
         0000010d000000f3bfbfbff0908080dfbfefbbbf000107000000eabbbb05e2a89202020706000000e0a080ef\
         bfbf0103040000000203014d030000016003000003009c19450e01da00000002040301506ca1f900c6000000\
         0005000000f09f988061000100000400000008010905010300000005000000f48ab3925504000000f09f9880\
         000000000100000000010a000000cf82ecb0b57eeca4b1720100010101000000000000",
    );
    let expected = "1 17 3, 6 22 8, 6 34 10, 6 48 12, 6 64 0, 5 64 0, 2 68 3, 6 73 2, 6 79 9, \
                    3 88 0, 3 89 0, 3 90 1, 6 95 13, 3 108 0, 3 109 1, 6 114 7, 2 121 2, \
                    2 122 2, 2 123 7, 6 128 6, 2 134 1, 2 135 3, 5 136 4, 2 140 2, 2 141 3, \
                    3 142 1, 4 143 845, 3 147 1, 4 148 864, 2 152 3, 3 153 0, 4 154 239409564, \
                    3 158 1, 4 159 218, 2 163 2, 2 164 4, 2 165 3, 3 166 1, 4 167 4188105808, \
                    3 171 0, 4 172 198, 3 176 0, 6 181 5, 4 186 256, 5 190 4, 2 194 8, 2 195 1, \
                    2 196 9, 2 197 5, 3 198 1, 5 199 3, 6 207 5, 6 216 4, 6 224 0, 3 224 1, \
                    3 225 0, 3 226 0, 3 227 0, 3 228 0, 3 229 1, 6 234 10, 3 244 1, 3 245 0, \
                    3 246 1, 2 247 1, 3 248 1, 3 249 0";

    let mut table = Table::new();
    let reading = table.read_section(&section).unwrap();
    assert_eq!(listed(reading), expected);
    let entities: Vec<_> = reading.entities().collect();
    assert_eq!(entities.len(), 1);
    assert_eq!(entities[0].kind(), EntityKind::Function);
    assert_eq!(entities[0].rows().len(), 67);
    assert_eq!(reading.texts().next(), Some("é日本"));
    assert_eq!(entities[0].name(), "é日本");

    // Its table returned begins with an array of Numeric, whose text is none of a mapping.
    let mut buffer = [0; SQL_TEXT_SIZE];
    assert_eq!(
        reading.sql_text(140, &mut buffer),
        Err(Refusal::new(10, 140))
    );
    assert_eq!(reading.sql_text(152, &mut buffer), Ok("NUMERIC"));
}

#[test]
fn debug_shows_counts() {
    let section = two_schemas();
    let mut table = [0; 10 * ROW_WIDTH];
    let reading = read_section(&section, &mut table).unwrap();
    assert_eq!(
        format!("{reading:?}"),
        format!(
            "Reading {{ bytes: {}, entities: 2, rows: 10 }}",
            section.len()
        )
    );
    assert_eq!(
        format!("{:?}", reading.entities().next().unwrap()),
        "Entity { kind: Schema, offset: 4, rows: 5 }"
    );
}

#[test]
fn numbers_of_sorts_and_kinds() {
    for number in 0..=10 {
        let sort = Sort::from_number(number);
        assert_eq!(
            sort.map(Sort::number),
            (1..=6).contains(&number).then_some(number)
        );
        let kind = EntityKind::from_number(number);
        assert_eq!(
            kind.map(EntityKind::number),
            (1..=9).contains(&number).then_some(number)
        );
    }
}

#[test]
fn numbers_of_rows() {
    let row = Row::new(Sort::Text, 5, 4);
    assert_eq!(row.numbers().to_vec(), table(&[(6, 5, 4)]));
    assert_eq!(Row::from_numbers(row.numbers()), Some(row));
    for sort in [0, 7, u32::MAX] {
        let mut numbers = row.numbers();
        numbers[0] = sort;
        assert_eq!(Row::from_numbers(numbers), None);
    }
}

#[test]
fn readings_can_be_sent() {
    fn sent<T: Send + Sync + Copy>() {}
    sent::<Reading>();
}

#[test]
fn forms_differ() {
    // A mapping Skip is no record, no payload and no section.
    assert!(read_mapping(&[5], &mut [0; ROW_WIDTH]).is_ok());
    assert_eq!(
        read_metadata(&[5], &mut [0; ROW_WIDTH]).unwrap_err(),
        Refusal::new(6, 0)
    );
    assert_eq!(
        read_payload(&[5], &mut [0; ROW_WIDTH]).unwrap_err(),
        Refusal::new(5, 1)
    );
    assert_eq!(
        read_section(&[5], &mut [0; ROW_WIDTH]).unwrap_err(),
        Refusal::new(2, 0)
    );
}
