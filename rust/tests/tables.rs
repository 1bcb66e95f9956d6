//! Tables of all sizes, lent and grown.

mod common;

use common::{entry, function, rows, schema};
use pgrxsc::{
    read_mapping, read_metadata, read_payload, read_section, table_len, Refusal, Sort, Table,
    LIMIT, ROW_WIDTH,
};

/// How many numbers the rows of `section` have.
const NUMBERS: usize = 5 * ROW_WIDTH;

/// One schema: five rows.
fn section() -> Vec<u8> {
    entry(&schema("", "name", "", 0))
}

#[test]
fn too_small() {
    for len in 0..NUMBERS {
        let mut table = vec![7; len];
        let refusal = read_section(&section(), &mut table).unwrap_err();
        assert_eq!(refusal, Refusal::new(13, 0), "{len}");
        assert_eq!(table, vec![0; len]);
    }
}

#[test]
fn just_large_enough_and_more() {
    for len in NUMBERS..NUMBERS + 2 * ROW_WIDTH {
        let section = section();
        let mut table = vec![7; len];
        let reading = read_section(&section, &mut table).unwrap();
        assert_eq!(reading.numbers().len(), NUMBERS);
        let rows = rows(reading);
        assert_eq!((rows[0], rows[4]), ((1, 4, 1), (4, 21, 0)));
        assert_eq!(table[NUMBERS..], vec![0; len - NUMBERS]);
    }
}

#[test]
fn other_refusals_come_first() {
    let mut bytes = section();
    bytes.push(9);
    let mut table = [7; ROW_WIDTH + 1];
    let refusal = read_section(&bytes, &mut table).unwrap_err();
    assert_eq!(refusal, Refusal::new(2, 25));
    assert_eq!(table, [0; ROW_WIDTH + 1]);
}

#[test]
fn no_table_for_no_rows() {
    assert!(read_section(&[], &mut []).is_ok());
    assert!(read_section(&[0; 9], &mut []).is_ok());
}

#[test]
fn readings_alone() {
    let thirteen = Some(Refusal::new(13, 0));
    let mut table = [0; 6 * ROW_WIDTH];
    // A table of that many rows, or of a number less.
    let mut tables = |rows: usize, read: &dyn Fn(&mut [u32]) -> Option<Refusal>| {
        let len = rows * ROW_WIDTH;
        [read(&mut table[..len - 1]), read(&mut table[..len])]
    };
    let payload = schema("", "", "", 0);
    let payload = tables(5, &|table| read_payload(&payload, table).err());
    assert_eq!(payload, [thirteen, None]);
    let record = tables(6, &|table| read_metadata(&[0, 1, 5, 1, 1, 5], table).err());
    assert_eq!(record, [thirteen, None]);
    let mapping = tables(1, &|table| read_mapping(&[5], table).err());
    assert_eq!(mapping, [thirteen, None]);
}

#[test]
fn length_at_most() {
    assert_eq!(table_len(&[]), 0);
    assert_eq!(table_len(&[0; 7]), 7 * ROW_WIDTH);
    assert_eq!(table_len(&vec![0; LIMIT + 1]), LIMIT * ROW_WIDTH);
}

#[test]
fn a_table_grows() {
    // Nearly as many rows as bytes, in a section above the size that needs no growing.
    for count in [100, 10_000, 300_000] {
        let section = entry(&function("", &vec![2; count]));
        assert_eq!(section.len(), count + 44);
        let mut table = Table::new();
        let reading = table.read_section(&section).unwrap();
        assert_eq!(reading.rows().len(), count + 16);
        let tags = reading
            .rows()
            .filter(|row| row.sort == Sort::Tag && row.value == 2);
        assert_eq!(tags.count(), count);
    }
}

#[test]
fn a_table_is_used_again() {
    let large = entry(&function("a", &[2; 5000]));
    let small = section();
    let bad = [1, 0, 0, 0, 10];
    let record = [0, 1, 5, 1, 1, 5];
    let mut table = Table::new();
    for _ in 0..2 {
        assert_eq!(table.read_section(&large).unwrap().rows().len(), 5016);
        assert_eq!(table.read_section(&small).unwrap().rows().len(), 5);
        assert_eq!(table.read_section(&bad).unwrap_err(), Refusal::new(8, 4));
        assert_eq!(table.read_section(&[]).unwrap().rows().len(), 0);
        assert_eq!(table.read_payload(&large[4..]).unwrap().rows().len(), 5016);
        assert_eq!(table.read_metadata(&record).unwrap().rows().len(), 6);
        assert_eq!(table.read_mapping(&[5]).unwrap().rows().len(), 1);
    }
}
