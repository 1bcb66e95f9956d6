//! Records and mappings that are written, and read again.

mod common;

use common::{hex, rows as read_rows, table, text};
use pgrxsc::{
    mapping_len, metadata_len, read_mapping, table_len, write_mapping, write_metadata, Refusal,
    Row, Sort, Table, LIMIT, ROW_WIDTH,
};

fn rows(rows: &[(Sort, u32, u32)]) -> Vec<u32> {
    let rows = rows
        .iter()
        .map(|&(sort, offset, value)| Row::new(sort, offset, value));
    rows.flat_map(Row::numbers).collect()
}

/// The rows of a mapping As, with the text at an offset.
fn literal(offset: u32, len: u32) -> Vec<u32> {
    rows(&[(Sort::Tag, 0, 1), (Sort::Text, offset, len)])
}

/// A record with a resolution, as an argument As, returned a set of Numeric; its texts in turned
/// order, one of them used twice in part.
fn record() -> (Vec<u32>, &'static [u8], Vec<u8>) {
    let rows = rows(&[
        (Sort::Flag, 9, 1),
        (Sort::Text, 4, 5),
        (Sort::Tag, 9, 1),
        (Sort::Tag, 9, 1),
        (Sort::Tag, 9, 1),
        (Sort::Text, 0, 6),
        (Sort::Tag, 9, 1),
        (Sort::Tag, 9, 2),
        (Sort::Tag, 9, 3),
        (Sort::Flag, 9, 0),
        (Sort::Number, 9, 8),
        (Sort::Flag, 9, 1),
        (Sort::Number, 9, 1 << 24),
    ]);
    let bytes = [
        vec![1],
        text("ident"),
        vec![1, 1, 1],
        text("TEXTid"),
        vec![1, 2, 3, 0, 8, 0, 0, 0, 1, 0, 0, 0, 1],
    ];
    (rows, b"TEXTident", bytes.concat())
}

/// A record that returns a table of texts with these lengths, each from the start of the lent text.
/// It has 9 bytes, and for each text 5 and the text's own.
fn table_of_texts(lens: &[u32]) -> Vec<u32> {
    let mut record = rows(&[
        (Sort::Flag, 0, 0),
        (Sort::Tag, 0, 1),
        (Sort::Tag, 0, 5),
        (Sort::Tag, 0, 1),
        (Sort::Tag, 0, 3),
        (Sort::Count, 0, lens.len() as u32),
    ]);
    for &len in lens {
        record.extend(rows(&[(Sort::Tag, 0, 1), (Sort::Text, 0, len)]));
    }
    record
}

/// A record of two errors: as an argument one with a text of this length, returned one without. It
/// has 9 bytes beside the text's own.
fn errors(text_len: u32) -> Vec<u32> {
    rows(&[
        (Sort::Flag, 0, 0),
        (Sort::Tag, 0, 2),
        (Sort::Tag, 0, 7),
        (Sort::Text, 0, text_len),
        (Sort::Tag, 0, 2),
        (Sort::Tag, 0, 10),
    ])
}

#[test]
fn a_record() {
    let (rows, text, bytes) = record();
    let mut dest = vec![0xee; bytes.len() + 3];
    assert_eq!(write_metadata(&rows, text, &mut dest), Ok(bytes.len()));
    assert_eq!(dest, [&bytes[..], &[0xee; 3]].concat());

    let mut table = Table::new();
    let reading = table.read_metadata(&bytes).unwrap();
    assert_eq!(reading.texts().collect::<Vec<_>>(), ["ident", "TEXTid"]);
    let written = rows.chunks(ROW_WIDTH).map(|row| (row[0], row[2]));
    let read = read_rows(reading).into_iter();
    assert!(read.map(|(sort, _, value)| (sort, value)).eq(written));
}

#[test]
fn what_was_read() {
    let (_, _, bytes) = record();
    let mut table = Table::new();
    let reading = table.read_metadata(&bytes).unwrap();
    let mut dest = vec![0; bytes.len()];
    let len = write_metadata(reading.numbers(), reading.bytes(), &mut dest);
    assert_eq!(len, Ok(bytes.len()));
    assert_eq!(dest, bytes);
}

const MAPPINGS: [&str; 8] = [
    "01 00000000",
    "01 03000000 494e54",
    "02 01 01000000 61",
    "02 03 01 0a000000 01 02000000",
    "02 04",
    "03 00 05000000 00 06000000",
    "04",
    "05",
];

#[test]
fn mappings() {
    for mapping in MAPPINGS {
        let mapping = hex(mapping);
        let mut table = vec![0; table_len(&mapping)];
        let reading = read_mapping(&mapping, &mut table).unwrap();
        let mut dest = vec![0; mapping.len()];
        let len = write_mapping(reading.numbers(), &mapping, &mut dest);
        assert_eq!(len, Ok(mapping.len()));
        assert_eq!(dest, mapping);
    }
}

type Measure = fn(&[u32], &[u8]) -> Result<usize, Refusal>;
type Write = fn(&[u32], &[u8], &mut [u8]) -> Result<usize, Refusal>;

const METADATA: (Measure, Write) = (metadata_len, write_metadata);
const MAPPING: (Measure, Write) = (mapping_len, write_mapping);

/// Asserts that this is the length, that this many bytes can be written, and that a destination of
/// a byte less is too short.
fn measured((measure, write): (Measure, Write), rows: &[u32], text: &[u8], len: usize) {
    assert_eq!(measure(rows, text), Ok(len));
    let mut dest = vec![0; len + 3];
    for size in [len, len + 3] {
        assert_eq!(write(rows, text, &mut dest[..size]), Ok(len));
    }
    assert_eq!(
        write(rows, text, &mut dest[..len - 1]),
        Err(Refusal::new(17, 0))
    );
}

#[test]
fn lengths_of_records() {
    let (rows, text, bytes) = record();
    measured(METADATA, &rows, text, bytes.len());
    measured(METADATA, &errors(0), b"", 9);
    measured(METADATA, &errors(9), text, 9 + 9);
}

#[test]
fn lengths_of_tables() {
    let text = "ä".repeat(1 << 19).into_bytes();
    let tables: [&[u32]; 6] = [
        &[],
        &[0],
        &[0, 0, 0],
        &[2, 0, 4],
        &[254, 256, 65_534, 65_536],
        &[1 << 20, 0, 1 << 20],
    ];
    for lens in tables {
        let texts: u32 = lens.iter().map(|len| 5 + len).sum();
        measured(METADATA, &table_of_texts(lens), &text, 9 + texts as usize);
    }
}

#[test]
fn lengths_of_mappings() {
    for mapping in MAPPINGS {
        let mapping = hex(mapping);
        let mut table = vec![0; table_len(&mapping)];
        let reading = read_mapping(&mapping, &mut table).unwrap();
        measured(MAPPING, reading.numbers(), &mapping, mapping.len());
    }
    let text = vec![b'a'; 1 << 20];
    measured(MAPPING, &literal(0, 1 << 20), &text, 5 + (1 << 20));
}

#[test]
fn a_length_after_a_refusal() {
    let (rows, text, bytes) = record();
    let mut dest = Vec::new();
    assert_eq!(
        write_metadata(&rows, text, &mut dest),
        Err(Refusal::new(17, 0))
    );
    dest.resize(metadata_len(&rows, text).unwrap(), 0);
    assert_eq!(write_metadata(&rows, text, &mut dest), Ok(bytes.len()));
    assert_eq!(dest, bytes);
}

/// Asserts that the rows get this refusal, and that the destination stays as it is. Unless only the
/// destination is too short, the length gets it too.
fn refused(rows: &[u32], text: &[u8], size: usize, number: u32) {
    let mut dest = vec![0xee; size];
    let refusal = write_mapping(rows, text, &mut dest).unwrap_err();
    assert_eq!(refusal, Refusal::new(number, 0), "{rows:?}");
    assert_eq!(dest, vec![0xee; size]);
    if number != 17 {
        assert_eq!(mapping_len(rows, text), Err(refusal), "{rows:?}");
    }
}

#[test]
fn not_one_mapping() {
    let skip = (2, 0, 5);
    let cases: [&[(u32, u32, u32)]; 7] = [
        &[],
        &[(2, 0, 6)],
        &[(2, 0, 257)],
        &[(3, 0, 1)],
        &[(2, 0, 1)],
        &[skip, skip],
        &[skip, (0, 0, 0)],
    ];
    for rows in cases {
        refused(&table(rows), b"", 9, 14);
    }
    // Numbers that are no whole row.
    let two = table(&[skip, skip]);
    for len in (1..ROW_WIDTH).chain(ROW_WIDTH + 1..2 * ROW_WIDTH) {
        refused(&two[..len], b"", 9, 14);
    }
    // A mapping is no record.
    let (mapping, mut dest) = (table(&[skip]), [0; 9]);
    let refusal = Err(Refusal::new(14, 0));
    assert_eq!(write_metadata(&mapping, b"", &mut dest), refusal);
    assert_eq!(metadata_len(&mapping, b""), refusal);
}

#[test]
fn texts_outside() {
    refused(&literal(1, 4), b"TEXT", 9, 15);
    refused(&literal(5, 0), b"TEXT", 9, 15);
    refused(&literal(u32::MAX, 2), b"TEXT", 9, 15);
    refused(&literal(0, 1), b"\xff", 9, 15);
    // 14 comes before 15.
    let rows = [literal(0, 1), table(&[(2, 0, 1)])].concat();
    refused(&rows, b"\xff", 9, 14);
    // In a record, outside and not UTF-8.
    for text in [b"TEXTiden".as_slice(), b"TEXTiden\xff"] {
        let (rows, _, bytes) = record();
        let refusal = Err(Refusal::new(15, 0));
        assert_eq!(metadata_len(&rows, text), refusal);
        assert_eq!(
            write_metadata(&rows, text, &mut vec![0; bytes.len()]),
            refusal
        );
    }
}

#[test]
fn too_long() {
    // A table of sixteen texts of 1 MiB each.
    let mut record = table_of_texts(&[1 << 20; 16]);
    let text = vec![b'a'; 1 << 20];
    let mut dest = vec![0; LIMIT + 1000];
    let mut both = |record: &[u32], expected: Result<usize, Refusal>| {
        assert_eq!(metadata_len(record, &text), expected);
        assert_eq!(write_metadata(record, &text, &mut dest), expected);
        assert!(expected.is_ok() || dest.iter().all(|&byte| byte == 0));
    };
    both(&record, Err(Refusal::new(16, 0)));

    // The texts have 16 times 5 bytes beside their own, and the rest 9: so it is 89 above the limit.
    let value = record.len() - ROW_WIDTH + 2;
    record[value] -= 88;
    both(&record, Err(Refusal::new(16, 0)));
    record[value] -= 1;
    both(&record, Ok(LIMIT));
}

#[test]
fn destination_too_short() {
    for size in 0..9 {
        refused(&literal(0, 4), b"TEXT", size, 17);
    }
    let mut dest = [0; 9];
    assert_eq!(write_mapping(&literal(0, 4), b"TEXT", &mut dest), Ok(9));
    // 15 comes before 17.
    refused(&literal(1, 4), b"TEXT", 0, 15);
}
