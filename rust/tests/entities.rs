//! Payloads and sections that are written from rows, and each refusal.

mod common;

use common::{
    custom_sql, entry, function, hex, rows as read_rows, schema, sentinel, table, trigger,
};
use pgrxsc::{
    payload_len, section_len, write_payload, write_section, Refusal, Table, LIMIT, ROW_WIDTH,
};

type Measure = fn(&[u32], &[u8]) -> Result<usize, Refusal>;
type Write = fn(&[u32], &[u8], &mut [u8]) -> Result<usize, Refusal>;

const PAYLOAD: (Measure, Write) = (payload_len, write_payload);
const SECTION: (Measure, Write) = (section_len, write_section);

type Rows<'a> = &'a [(u32, u32, u32)];

/// Asserts that the rows are written as these bytes, and no byte after them; that this is their
/// length; and that a destination of a byte less is too short, and stays as it is.
fn written((measure, write): (Measure, Write), rows: &[u32], text: &[u8], bytes: &[u8]) {
    let len = bytes.len();
    assert_eq!(measure(rows, text), Ok(len));
    for more in [0, 1, 9] {
        let mut dest = vec![0xee; len + more];
        assert_eq!(write(rows, text, &mut dest), Ok(len));
        assert!(dest[..len] == *bytes);
        assert_eq!(dest[len..], vec![0xee; more]);
    }
    let mut dest = vec![0xee; len - 1];
    assert_eq!(write(rows, text, &mut dest), Err(Refusal::new(17, 0)));
    assert!(dest.iter().all(|&byte| byte == 0xee));
}

/// Asserts that the rows get this refusal, as a destination of this size does, which stays as it is.
fn refused(
    (measure, write): (Measure, Write),
    rows: &[u32],
    text: &[u8],
    size: usize,
    number: u32,
) {
    let refusal = Err(Refusal::new(number, 0));
    assert_eq!(measure(rows, text), refusal);
    let mut dest = vec![0xee; size];
    assert_eq!(write(rows, text, &mut dest), refusal);
    assert!(dest.iter().all(|&byte| byte == 0xee));
}

/// A schema of five rows. Its texts are parts of `TEXT` in turned order, and overlap.
const SCHEMA: [(u32, u32, u32); 5] = [(1, 9, 1), (6, 4, 3), (6, 0, 4), (6, 2, 4), (4, 9, 258)];
const TEXT: &[u8] = b"namepath";

fn schema_payload() -> Vec<u8> {
    schema("pat", "name", "mepa", 258)
}

/// A trigger of eight rows, without texts.
const TRIGGER: [(u32, u32, u32); 8] = [
    (1, 0, 9),
    (6, 0, 0),
    (6, 8, 0),
    (4, 0, 0),
    (6, 0, 0),
    (6, 3, 0),
    (3, 0, 0),
    (3, 0, 0),
];

#[test]
fn one_entity() {
    let rows = table(&SCHEMA);
    written(PAYLOAD, &rows, TEXT, &schema_payload());
    written(SECTION, &rows, TEXT, &entry(&schema_payload()));
    let rows = table(&TRIGGER);
    written(PAYLOAD, &rows, TEXT, &trigger(""));
    written(SECTION, &rows, TEXT, &entry(&trigger("")));
}

#[test]
fn several_entities() {
    let rows = table(&[&SCHEMA[..], &TRIGGER, &TRIGGER, &SCHEMA].concat());
    let section = [
        entry(&schema_payload()),
        entry(&trigger("")),
        entry(&trigger("")),
        entry(&schema_payload()),
    ];
    written(SECTION, &rows, TEXT, &section.concat());
    refused(PAYLOAD, &rows, TEXT, 200, 14);

    let many = rows.repeat(1000);
    written(SECTION, &many, TEXT, &section.concat().repeat(1000));
}

/// Entities of several kinds, as payloads.
fn payloads() -> Vec<Vec<u8>> {
    vec![
        function("ext::f", &[1, 2, 10]),
        schema("m", "zwei ä", "f.rs", 1 << 31),
        custom_sql(&[1, 1, 3, 0, 0, 0, b'd', b'o', b'g']),
        custom_sql(&hex("01 03 00 07000000 00 09000000")),
        trigger("ext::t"),
        schema("", "", "", 0),
    ]
}

#[test]
fn what_was_read() {
    let payloads = payloads();
    let mut table = Table::new();
    for payload in &payloads {
        let reading = table.read_payload(payload).unwrap();
        written(PAYLOAD, reading.numbers(), payload, payload);
    }

    let section: Vec<u8> = payloads.iter().flat_map(|payload| entry(payload)).collect();
    let reading = table.read_section(&section).unwrap();
    written(SECTION, reading.numbers(), &section, &section);

    // The entities of a section, each alone and from one of them on: their offsets count from the
    // section's start.
    let entities: Vec<_> = reading.entities().collect();
    for (entity, payload) in entities.iter().zip(&payloads) {
        written(PAYLOAD, entity.numbers(), &section, payload);
        written(SECTION, entity.numbers(), &section, &entry(payload));
        let before = entity.offset() as usize - 4;
        let skipped = entities
            .iter()
            .take_while(|other| other.offset() < entity.offset());
        let skipped: usize = skipped.map(|other| other.numbers().len()).sum();
        let rest = &reading.numbers()[skipped..];
        written(SECTION, rest, &section, &section[before..]);
    }
}

#[test]
fn without_sentinels_and_padding() {
    let payloads = payloads();
    let plain: Vec<u8> = payloads.iter().flat_map(|payload| entry(payload)).collect();
    let mut section = sentinel();
    for payload in &payloads {
        section.extend(entry(payload));
        section.extend(sentinel());
    }
    section.extend([0; 7]);
    let mut table = Table::new();
    let reading = table.read_section(&section).unwrap();
    written(SECTION, reading.numbers(), &section, &plain);

    // A section without entities has no rows.
    let reading = table.read_section(&section[..13]).unwrap();
    refused(SECTION, reading.numbers(), &section, 100, 14);
}

#[test]
fn read_again() {
    let rows = table(&[&TRIGGER[..], &SCHEMA].concat());
    let mut dest = vec![0; section_len(&rows, TEXT).unwrap()];
    write_section(&rows, TEXT, &mut dest).unwrap();
    let mut table = Table::new();
    let reading = table.read_section(&dest).unwrap();
    let read = read_rows(reading).into_iter();
    let given = rows.chunks(ROW_WIDTH).map(|row| (row[0], row[2]));
    assert!(read.map(|(sort, _, value)| (sort, value)).eq(given));
    let texts: Vec<_> = reading.texts().collect();
    assert_eq!(texts, ["", "", "", "", "pat", "name", "mepa"]);
}

#[test]
fn not_one_entity() {
    let both = |rows: &[u32]| {
        refused(PAYLOAD, rows, TEXT, 100, 14);
        refused(SECTION, rows, TEXT, 100, 14);
    };
    both(&[]);
    // A row is missing, doubled, or of another sort.
    for at in 0..SCHEMA.len() {
        let mut rows = SCHEMA.to_vec();
        rows.remove(at);
        both(&table(&rows));
        rows.splice(at..at, [SCHEMA[at]; 2]);
        both(&table(&rows));
        for sort in (0..=7).chain([u32::MAX]) {
            let mut rows = SCHEMA;
            rows[at].0 = sort;
            if sort != SCHEMA[at].0 {
                both(&table(&rows));
            }
        }
    }
    // Kinds that are unknown, or of another entity.
    let entities: [Rows; 2] = [&SCHEMA, &TRIGGER];
    for entity in entities {
        for kind in (0..=12).chain([257, 265, u32::MAX]) {
            let mut rows = entity.to_vec();
            rows[0].2 = kind;
            if rows != entity {
                both(&table(&rows));
            }
        }
    }
    // Numbers that are no whole row, and rows of 0.
    let rows = table(&[&SCHEMA[..], &SCHEMA].concat());
    for len in 1..rows.len() {
        if len % (SCHEMA.len() * ROW_WIDTH) != 0 {
            both(&rows[..len]);
        }
    }
    both(&table(&[&SCHEMA[..], &[(0, 0, 0)]].concat()));
    // A record and a mapping.
    let record = [
        (3, 0, 0),
        (2, 0, 1),
        (2, 0, 5),
        (2, 0, 1),
        (2, 0, 1),
        (2, 0, 5),
    ];
    both(&table(&record));
    both(&table(&record[2..3]));
}

#[test]
fn flags_and_tags() {
    let both = |rows: Rows| {
        refused(PAYLOAD, &table(rows), TEXT, 100, 14);
        refused(SECTION, &table(rows), TEXT, 100, 14);
    };
    let mut rows = TRIGGER;
    for at in [6, 7] {
        for flag in [2, 256, u32::MAX] {
            rows[at].2 = flag;
            both(&rows);
        }
        rows[at].2 = 0;
    }
    // A flag that says that a text follows.
    rows[7].2 = 1;
    both(&rows);
    // Attributes of a function.
    let payload = function("", &[2]);
    let mut reader = Table::new();
    let rows = read_rows(reader.read_payload(&payload).unwrap());
    let at = rows
        .iter()
        .position(|&(sort, _, value)| (sort, value) == (2, 2));
    for tag in [0, 13, 15, 18, 19, 256 + 2] {
        let mut rows = rows.clone();
        rows[at.unwrap()].2 = tag;
        both(&rows);
    }
}

/// The rows of custom SQL with one declaration, of this kind and result.
fn declaration(kind: u32, result: Rows) -> Vec<u32> {
    let before = [
        (1, 0, 2),
        (6, 0, 0),
        (6, 0, 0),
        (6, 0, 0),
        (6, 0, 0),
        (4, 0, 0),
        (6, 0, 0),
        (3, 0, 0),
        (3, 0, 0),
        (5, 0, 0),
        (5, 0, 1),
        (2, 0, kind),
        (6, 0, 4),
        (6, 4, 4),
    ];
    table(&[&before[..], result].concat())
}

#[test]
fn declarations() {
    let numeric = [(2, 0, 3), (3, 0, 0), (4, 0, 7), (3, 0, 1), (4, 0, 9)];
    let numeric = [&[(2, 0, 1)], &numeric[..]].concat();
    for kind in [1, 2] {
        // As and Numeric.
        let good: [Rows; 2] = [&[(2, 0, 1), (2, 0, 1), (6, 0, 8)], &numeric];
        for result in good {
            let rows = declaration(kind, result);
            let mut dest = vec![0; payload_len(&rows, TEXT).unwrap()];
            write_payload(&rows, TEXT, &mut dest).unwrap();
            assert!(Table::new().read_payload(&dest).is_ok());
        }
        // An error, Composite, Skip, and arrays.
        let bad: [Rows; 6] = [
            &[(2, 0, 2), (2, 0, 1)],
            &[(2, 0, 2), (2, 0, 7), (6, 0, 8)],
            &[(2, 0, 1), (2, 0, 4)],
            &[(2, 0, 1), (2, 0, 5)],
            &[(2, 0, 1), (2, 0, 2), (2, 0, 4)],
            &[(2, 0, 1), (2, 0, 2), (2, 0, 1), (6, 0, 8)],
        ];
        for result in bad {
            let rows = declaration(kind, result);
            refused(PAYLOAD, &rows, TEXT, 200, 14);
            refused(SECTION, &rows, TEXT, 200, 14);
        }
    }
    // A function has a name alone.
    let function = declaration(3, &[]);
    refused(PAYLOAD, &function, TEXT, 200, 14);
    let function = &function[..function.len() - ROW_WIDTH];
    assert_eq!(payload_len(function, TEXT), Ok(44));
}

#[test]
fn texts_outside() {
    let both = |rows: &[u32], text: &[u8], size: usize, number: u32| {
        refused(PAYLOAD, rows, text, size, number);
        refused(SECTION, rows, text, size, number);
    };
    for (offset, len) in [(9, 0), (8, 1), (0, 9), (u32::MAX, u32::MAX)] {
        let mut rows = SCHEMA;
        rows[3] = (6, offset, len);
        both(&table(&rows), TEXT, 100, 15);
        // 14 comes before 15, and 15 before 17.
        both(&table(&rows), TEXT, 0, 15);
        both(&table(&[&rows[..], &[(4, 0, 0)]].concat()), TEXT, 100, 14);
        rows[4].0 = 5;
        both(&table(&rows), TEXT, 100, 14);
    }
    both(&table(&SCHEMA), b"nam\xffpath", 100, 15);
    both(&table(&SCHEMA), b"nam\xc3\xa9ath", 100, 15); // a character is cut

    // The second of two entities, and the first.
    let mut bad = SCHEMA;
    bad[1].1 = 100;
    for rows in [[SCHEMA, bad], [bad, SCHEMA]] {
        refused(SECTION, &table(&rows.concat()), TEXT, 100, 15);
    }
}

/// A schema whose module path is this long.
fn long(len: usize) -> Vec<u32> {
    table(&[
        (1, 0, 1),
        (6, 0, len as u32),
        (6, 0, 0),
        (6, 0, 0),
        (4, 0, 0),
    ])
}

#[test]
fn too_long() {
    let text = vec![b'a'; LIMIT];
    let sixteen = Err(Refusal::new(16, 0));
    // A schema has 17 bytes beside its texts, and its entry four more, which count in a section.
    assert_eq!(payload_len(&long(LIMIT - 17), &text), Ok(LIMIT));
    refused(PAYLOAD, &long(LIMIT - 16), &text, LIMIT + 9, 16);
    assert_eq!(section_len(&long(LIMIT - 21), &text), Ok(LIMIT));
    refused(SECTION, &long(LIMIT - 20), &text, LIMIT + 9, 16);
    refused(SECTION, &long(LIMIT - 17), &text, LIMIT + 9, 16);

    // Sixteen schemas, of 1 MiB each: just as long, and a byte longer.
    let mib = 1 << 20;
    let mut rows = long(mib - 21).repeat(16);
    let mut dest = vec![0; LIMIT + 1];
    assert_eq!(write_section(&rows, &text, &mut dest), Ok(LIMIT));
    assert_eq!(dest[LIMIT], 0);
    assert_eq!(
        Table::new()
            .read_section(&dest[..LIMIT])
            .unwrap()
            .entities()
            .len(),
        16
    );
    rows[5] += 1; // the value of the second row
    assert_eq!(section_len(&rows, &text), sixteen);
    refused(SECTION, &rows, &text, LIMIT + 1, 16);
    // 15 comes before 16, and 16 before 17.
    refused(SECTION, &rows, &text[..mib], 0, 16);
    refused(SECTION, &rows, &text[..100], LIMIT, 15);

    // As many entries as fit, and one more: the lengths of the entries are a fifth of the bytes.
    let most = LIMIT / 21;
    let rows = long(0).repeat(most + 1);
    assert_eq!(
        section_len(&rows[..most * 5 * ROW_WIDTH], &[]),
        Ok(most * 21)
    );
    assert_eq!(section_len(&rows, &[]), sixteen);
}

#[test]
fn destination_too_short() {
    let rows = table(&[&SCHEMA[..], &SCHEMA].concat());
    let len = 2 * (4 + schema_payload().len());
    for size in 0..len {
        let mut dest = vec![0xee; size];
        let refusal = write_section(&rows, TEXT, &mut dest);
        assert_eq!(refusal, Err(Refusal::new(17, 0)));
        assert_eq!(dest, vec![0xee; size]);
    }
    assert_eq!(section_len(&rows, TEXT), Ok(len));
}
