//! Each refusal of a reading, and the names and sentences of all.

mod common;

use common::{custom_sql, entry, function, hex, schema};
use pgrxsc::{
    entity_at, path_repeats, read_mapping, read_payload, read_section, Refusal, RefusalKind, Table,
    LIMIT,
};
use std::collections::HashSet;
use std::error::Error;

fn section_refusal(section: &[u8]) -> (u32, usize) {
    let refusal = Table::new().read_section(section).unwrap_err();
    // A report on paths has the same refusals, and so have a directory and what holds a position.
    assert_eq!(path_repeats(section), Err(refusal));
    assert_eq!(entity_at(section, 0), Err(refusal));
    assert_eq!(Table::new().read_directory(section).unwrap_err(), refusal);
    (refusal.number(), refusal.place())
}

#[test]
fn limit() {
    let bytes = vec![0; LIMIT + 1];
    assert_eq!(section_refusal(&bytes), (1, 0));
    assert_eq!(
        read_payload(&bytes, &mut []).unwrap_err(),
        Refusal::new(1, 0)
    );
    assert_eq!(
        read_mapping(&bytes, &mut []).unwrap_err(),
        Refusal::new(1, 0)
    );
    assert!(read_section(&bytes[1..], &mut []).is_ok());
}

#[test]
fn framing_comes_first() {
    // The first entry has an unknown kind, the second a length that is too large.
    assert_eq!(section_refusal(&hex("01000000 0a 02000000 01")), (4, 5));
    assert_eq!(section_refusal(&hex("01000000 0a 00000000 0001")), (3, 5));
    assert_eq!(section_refusal(&hex("01000000 0a 000001")), (2, 5));
    assert_eq!(section_refusal(&hex("01000000 0a 000000")), (8, 4));
}

#[test]
fn inside_an_entity() {
    assert_eq!(section_refusal(&entry(&[1, 4, 0, 0])), (5, 5));
    assert_eq!(section_refusal(&entry(&[1, 2, 0, 0, 0, b'a'])), (5, 9));
    assert_eq!(section_refusal(&entry(&[1, 1, 0, 0, 0, 0xff])), (7, 9));
    assert_eq!(section_refusal(&entry(&[0])), (8, 4));

    let mut bytes = entry(&function("", &[2, 19]));
    let attributes = bytes.len() - 5 - 2;
    assert_eq!(section_refusal(&bytes), (9, attributes + 1));
    bytes[attributes + 1] = 3;
    let flag = attributes + 2;
    bytes[flag] = 2;
    assert_eq!(section_refusal(&bytes), (6, flag));
    bytes[flag] = 0;
    assert!(Table::new().read_section(&bytes).is_ok());
}

#[test]
fn the_first_bad_read() {
    // The second entity is bad, and the third worse.
    let good = entry(&schema("m", "n", "f", 1));
    let section = [&good[..], &entry(&[1, 1, 0, 0, 0, 0xff]), &entry(&[11])].concat();
    assert_eq!(section_refusal(&section), (7, good.len() + 9));
}

#[test]
fn declarations() {
    let refusal = |result: &[u8]| Table::new().read_payload(&custom_sql(result)).err();
    // Skip, Composite, and an array: read well, but without an SQL text.
    for mapping in [&[1, 5][..], &[1, 4], &[1, 2, 4]] {
        assert_eq!(refusal(mapping), Some(Refusal::new(10, 44)));
    }
    assert_eq!(refusal(&[2, 1]), Some(Refusal::new(11, 44)));
    assert_eq!(refusal(&[2, 8]), Some(Refusal::new(9, 45)));
    assert_eq!(refusal(&[3]), Some(Refusal::new(9, 44)));
    assert_eq!(refusal(&[1, 1, 0, 0, 0, 0]), None);
    assert_eq!(refusal(&[1, 1, 0, 0, 0, 0, 0]), Some(Refusal::new(12, 50)));
    assert_eq!(refusal(&hex("01 03 00 07000000 00 00000000")), None);
}

#[test]
fn sentences() {
    for (number, place, sentence) in [
        (1, 0, "there are more than 16777216 bytes (refusal 1)"),
        (
            2,
            5,
            "the section's last bytes, from byte 5 on, are too few for an entry and not all zero \
             (refusal 2)",
        ),
        (7, 17, "the text at byte 17 is not UTF-8 (refusal 7)"),
        (
            13,
            0,
            "the table has fewer rows than the reading needs (refusal 13)",
        ),
        (
            17,
            0,
            "the destination is too short, or the buffer for an SQL text has not 31 bytes \
             (refusal 17)",
        ),
        (
            18,
            0,
            "the file is no 64-bit little-endian ELF file with section headers of 64 bytes \
             (refusal 18)",
        ),
        (
            19,
            0,
            "the file has no section headers or no section name table, or one of the two tables, \
             or the section found, ends past the file (refusal 19)",
        ),
        (
            20,
            0,
            "the file has no section of that name, or one without bytes in the file (refusal 20)",
        ),
        (
            21,
            0,
            "the list has fewer records than the section has entities (refusal 21)",
        ),
        (
            22,
            0,
            "the reason at byte 0 is one that this crate does not know (refusal 22)",
        ),
    ] {
        assert_eq!(Refusal::new(number, place).to_string(), sentence);
    }
}

#[test]
fn a_sentence_for_each() {
    let mut sentences = HashSet::new();
    for number in 1..=21 {
        let refusal = Refusal::new(number, 98765);
        let sentence = refusal.to_string();
        let reason = sentence
            .strip_suffix(&format!(" (refusal {number})"))
            .unwrap();
        assert!(!reason.contains("does not know"), "{sentence}");
        assert!(!reason.contains("  "), "{sentence}");
        // 2 to 12 have a place.
        assert_eq!(
            reason.contains("byte 98765"),
            (2..=12).contains(&number),
            "{sentence}"
        );
        sentences.insert(reason.to_string());
    }
    assert_eq!(sentences.len(), 21);
}

#[test]
fn names() {
    for number in 1..=21 {
        let kind = Refusal::new(number, 5).kind().unwrap();
        assert_eq!(kind.number(), number);
        assert_eq!(RefusalKind::from_number(number), Some(kind));
    }
    for number in [0, 22, u32::MAX] {
        assert_eq!(RefusalKind::from_number(number), None);
        assert_eq!(Refusal::new(number, 5).kind(), None);
    }

    let kind = |section: &[u8]| Table::new().read_section(section).unwrap_err().kind();
    assert_eq!(kind(&[1]), Some(RefusalKind::PartialLength));
    assert_eq!(kind(&entry(&[10])), Some(RefusalKind::UnknownKind));
    let refusal = read_section(&entry(&schema("", "", "", 0)), &mut []).unwrap_err();
    assert_eq!(refusal.kind(), Some(RefusalKind::TableTooSmall));
}

#[test]
fn an_error_like_others() {
    fn read(bytes: &[u8]) -> Result<usize, Box<dyn Error + Send + Sync>> {
        Ok(Table::new().read_section(bytes)?.rows().len())
    }
    assert_eq!(read(&[]).unwrap(), 0);
    let error = read(&[0, 1]).unwrap_err();
    assert_eq!(error.downcast_ref(), Some(&Refusal::new(2, 0)));
}
