//! The fourteen cases that the format's description gives with their answers.

mod common;
#[allow(dead_code)]
#[path = "../examples/list.rs"]
mod list;

use common::{hex, rows, sentinel};
use pgrxsc::{read_metadata, sql_text, write_metadata, ROW_WIDTH, SQL_TEXT_SIZE};

fn listing(section: &[u8]) -> String {
    let mut out = Vec::new();
    list::list(section, &mut out).unwrap();
    String::from_utf8(out).unwrap()
}

/// Entities' and rows' numbers, or the refusal, as the listing's first line.
fn first_line(section: &str) -> String {
    listing(&hex(section)).lines().next().unwrap().to_string()
}

#[test]
fn empty_schema() {
    let section = hex("11000000 01 0000000000000000 0000000000000000");
    assert_eq!(
        listing(&section),
        "accept 1 5\n1 4 1\n6 9 0\n6 13 0\n6 17 0\n4 17 0\n"
    );
}

#[test]
fn no_entity() {
    for section in ["", "000000", "00000000"] {
        assert_eq!(listing(&hex(section)), "accept 0 0\n", "{section}");
    }
    assert_eq!(listing(&sentinel()), "accept 0 0\n");
}

#[test]
fn refused() {
    assert_eq!(listing(&hex("0001")), "refuse 2 0\n");
    assert_eq!(first_line("00000000 05"), "refuse 3 0");
    assert_eq!(first_line("02000000 01"), "refuse 4 0");
    assert_eq!(first_line("01000000 0a"), "refuse 8 4");
    assert_eq!(first_line("01000000 0a 01"), "refuse 2 5");
    assert_eq!(
        first_line("12000000 01 0000000000000000 0000000000000000 00"),
        "refuse 12 21"
    );
}

#[test]
fn metadata_of_skip() {
    let record = hex("00 01 05 01 01 05");
    let mut table = [0; 6 * ROW_WIDTH];
    let reading = read_metadata(&record, &mut table).unwrap();
    assert_eq!(reading.entities().len(), 0);
    assert_eq!(
        rows(reading),
        [
            (3, 0, 0),
            (2, 1, 1),
            (2, 2, 5),
            (2, 3, 1),
            (2, 4, 1),
            (2, 5, 5)
        ]
    );

    let mut dest = [0xee; 7];
    assert_eq!(write_metadata(reading.numbers(), &[], &mut dest), Ok(6));
    assert_eq!(dest, [0, 1, 5, 1, 1, 5, 0xee]);
}

#[test]
fn numeric() {
    let mut buffer = [0; SQL_TEXT_SIZE];
    let mapping = hex("03 01 0a000000 01 02000000");
    assert_eq!(sql_text(&mapping, 0, &mut buffer), Ok("NUMERIC(10, 2)"));
    let mapping = hex("03 00 00000000 01 05000000");
    assert_eq!(sql_text(&mapping, 0, &mut buffer), Ok("NUMERIC"));
}
