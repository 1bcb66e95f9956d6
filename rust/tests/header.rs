//! The crate beside `include/pgrxsc.h`: the same constants, and the same functions.

use pgrxsc::{
    EntityKind, Record, RefusalKind, Sort, ELF_SECTION_NAME, LIMIT, MOST_KEPT, ROW_WIDTH,
    SQL_TEXT_SIZE, VERSION,
};
use std::collections::{BTreeMap, BTreeSet};
use std::fmt::Debug;
use std::mem::{align_of, size_of};

const HEADER: &str = include_str!("../../include/pgrxsc.h");
const FFI: &str = include_str!("../src/ffi.rs");

/// Adds the names that numbers have, after a prefix. A name of the crate, as `CustomSql`, is
/// `CUSTOM_SQL` in the header.
fn add<T: Debug>(
    constants: &mut BTreeMap<String, u64>,
    prefix: &str,
    from_number: fn(u32) -> Option<T>,
) {
    for number in 0..1000 {
        let Some(value) = from_number(number) else {
            continue;
        };
        let mut name = String::new();
        for letter in format!("{value:?}").chars() {
            if letter.is_uppercase() {
                name.push('_');
            }
            name.push(letter.to_ascii_uppercase());
        }
        constants.insert(format!("{prefix}{name}"), number.into());
    }
}

fn numbered() -> BTreeMap<String, u64> {
    let mut constants = BTreeMap::new();
    add(&mut constants, "PGRXSC_SORT", Sort::from_number);
    add(&mut constants, "PGRXSC_KIND", EntityKind::from_number);
    add(&mut constants, "PGRXSC_REFUSAL", RefusalKind::from_number);
    constants
}

#[test]
fn constants() {
    let mut expected = numbered();
    assert_eq!(expected.len(), 6 + 9 + 21);
    expected.insert("PGRXSC_VERSION".into(), VERSION.into());
    expected.insert("PGRXSC_LIMIT".into(), LIMIT as u64);
    expected.insert("PGRXSC_ROW_WIDTH".into(), ROW_WIDTH as u64);
    expected.insert("PGRXSC_SQL_TEXT_SIZE".into(), SQL_TEXT_SIZE as u64);
    expected.insert("PGRXSC_MOST_KEPT".into(), MOST_KEPT as u64);
    let numbers = expected.into_iter();
    let mut expected: BTreeMap<String, String> = numbers
        .map(|(name, number)| (name, number.to_string()))
        .collect();
    expected.insert(
        "PGRXSC_ELF_SECTION_NAME".into(),
        format!("\"{ELF_SECTION_NAME}\""),
    );

    let mut header = BTreeMap::new();
    for line in HEADER.lines() {
        let Some(define) = line.strip_prefix("#define ") else {
            continue;
        };
        // The guard alone has no value.
        let Some((name, value)) = define.split_once(' ') else {
            assert_eq!(define, "PGRXSC_H");
            continue;
        };
        let value = header.insert(name.to_string(), value.to_string());
        assert_eq!(value, None, "{line}");
    }
    assert_eq!(header, expected);
}

/// The tables in the header's first comment have each name, after its number.
#[test]
fn tables() {
    let (comment, _) = HEADER.split_once("*/").unwrap();
    let words: Vec<&str> = comment.split_whitespace().collect();
    for (constant, number) in numbered() {
        let (_, name) = constant
            .strip_prefix("PGRXSC_")
            .and_then(|name| name.split_once('_'))
            .unwrap();
        let mut places = words.windows(2).filter(|pair| pair[1] == name);
        assert_eq!(
            places.next().map(|pair| pair[0]),
            Some(number.to_string().as_str()),
            "{constant}"
        );
        assert!(places.next().is_none(), "{constant}");
    }
}

/// A record is laid out as the header's struct: the same fields of 32 bits, one after another.
#[test]
fn records() {
    let (_, fields) = HEADER.split_once("struct pgrxsc_record {\n").unwrap();
    let (fields, _) = fields.split_once("};").unwrap();
    let names = fields.lines().map(|line| {
        let (name, _) = line
            .strip_prefix("    uint32_t ")
            .and_then(|line| line.split_once(';'))
            .unwrap();
        name
    });
    let names: Vec<&str> = names.collect();

    let record = Record::default();
    let fields = [
        ("kind", &record.kind),
        ("start", &record.start),
        ("length", &record.length),
        ("first_row", &record.first_row),
        ("row_count", &record.row_count),
    ];
    assert_eq!(names, fields.map(|(name, _)| name));
    let start = &record as *const Record as usize;
    let offsets = fields.map(|(_, field)| field as *const u32 as usize - start);
    assert_eq!(offsets, [0, 4, 8, 12, 16]);
    assert_eq!(size_of::<Record>(), 20);
    assert_eq!(align_of::<Record>(), align_of::<u32>());
}

/// The names that stand before a parenthesis.
fn functions(text: &str) -> BTreeSet<&str> {
    let ends = text.match_indices('(').map(|(end, _)| &text[..end]);
    let names = ends.map(|before| {
        let start = before.rfind(|c: char| !c.is_ascii_alphanumeric() && c != '_');
        &before[start.map_or(0, |start| start + 1)..]
    });
    names.filter(|name| name.starts_with("pgrxsc_")).collect()
}

#[test]
fn declarations() {
    let (_, after_comment) = HEADER.split_once("*/").unwrap();
    let (_, archive) = FFI.split_once("extern \"C\" {").unwrap();
    let (archive, _) = archive.split_once("\n    }\n").unwrap();
    assert_eq!(functions(archive), functions(after_comment));
    assert!(functions(archive).contains("pgrxsc_version"));
}
