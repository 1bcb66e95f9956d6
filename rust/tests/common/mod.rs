//! Bytes of the format, made from its description.
#![allow(dead_code)]

use pgrxsc::{Reading, Row, Sort, ROW_WIDTH};

/// Bytes in base 16, with blanks between them where that helps.
pub fn hex(digits: &str) -> Vec<u8> {
    let digits: Vec<u32> = digits.chars().filter_map(|c| c.to_digit(16)).collect();
    digits
        .chunks(2)
        .map(|pair| (16 * pair[0] + pair[1]) as u8)
        .collect()
}

pub fn number(value: u32) -> Vec<u8> {
    value.to_le_bytes().to_vec()
}

pub fn text(text: &str) -> Vec<u8> {
    [number(text.len() as u32), text.as_bytes().to_vec()].concat()
}

/// An entry: a length, then the payload.
pub fn entry(payload: &[u8]) -> Vec<u8> {
    [number(payload.len() as u32), payload.to_vec()].concat()
}

pub fn sentinel() -> Vec<u8> {
    hex("09000000 00 04000000 70677278")
}

pub fn schema(module_path: &str, name: &str, file: &str, line: u32) -> Vec<u8> {
    [
        vec![1],
        text(module_path),
        text(name),
        text(file),
        number(line),
    ]
    .concat()
}

/// A function without arguments and result, of 40 bytes, its texts and its attributes, and of 16
/// rows and its attributes.
pub fn function(full_path: &str, attributes: &[u8]) -> Vec<u8> {
    [
        vec![3],
        text(""),
        text(""),
        text(""),
        text(full_path),
        number(0),
        vec![1],
        vec![0],
        text(""),
        number(0),
        number(attributes.len() as u32),
        attributes.to_vec(),
        vec![0, 0, 0],
        vec![0, 0],
    ]
    .concat()
}

pub fn trigger(full_path: &str) -> Vec<u8> {
    [
        vec![9],
        text(""),
        text(""),
        number(0),
        text(""),
        text(full_path),
        vec![0, 0],
    ]
    .concat()
}

/// Custom SQL with one declaration, of a type. The declaration's result begins at byte 44.
pub fn custom_sql(result: &[u8]) -> Vec<u8> {
    [
        vec![2],
        vec![0; 16],
        number(0),
        text(""),
        vec![0, 0],
        number(0),
        number(1),
        vec![1],
        text(""),
        text(""),
        result.to_vec(),
    ]
    .concat()
}

/// The rows of a reading, each as sort, offset and value.
pub fn rows(reading: Reading) -> Vec<(u32, u32, u32)> {
    let rows = reading.rows();
    rows.map(|row| (row.sort.number(), row.offset, row.value))
        .collect()
}

/// A table of rows, each given by sort, offset and value, which may be any numbers.
pub fn table(rows: &[(u32, u32, u32)]) -> Vec<u32> {
    let mut table = vec![0; rows.len() * ROW_WIDTH];
    for (row, &(sort, offset, value)) in table.chunks_exact_mut(ROW_WIDTH).zip(rows) {
        (row[0], row[1], row[2]) = (sort, offset, value);
    }
    table
}

/// How many bytes of a name the server keeps: the greatest character boundary at or below 63 bytes.
pub fn kept(name: &str) -> usize {
    let most = name.len().min(63);
    (0..=most)
        .rfind(|&at| name.is_char_boundary(at))
        .expect("the start is a boundary")
}

pub fn text_row(offset: u32, len: u32) -> Row {
    Row::new(Sort::Text, offset, len)
}
