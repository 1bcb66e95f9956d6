//! What bytes are read as, with the crate's functions for each; and where the texts are that the crate gives.
use pgrxsc::{Reading, Refusal, Row};

/// What bytes are read as.
#[derive(Clone, Copy, Debug, PartialEq)]
pub enum What {
    Section,
    Payload,
    Metadata,
    Mapping,
}

impl What {
    pub fn read<'b, 't>(self, bytes: &'b [u8], table: &'t mut [u32]) -> Result<Reading<'b, 't>, Refusal> {
        match self {
            What::Section => pgrxsc::read_section(bytes, table),
            What::Payload => pgrxsc::read_payload(bytes, table),
            What::Metadata => pgrxsc::read_metadata(bytes, table),
            What::Mapping => pgrxsc::read_mapping(bytes, table),
        }
    }

    pub fn write(self, rows: &[u32], text: &[u8], dest: &mut [u8]) -> Result<usize, Refusal> {
        match self {
            What::Section => pgrxsc::write_section(rows, text, dest),
            What::Payload => pgrxsc::write_payload(rows, text, dest),
            What::Metadata => pgrxsc::write_metadata(rows, text, dest),
            What::Mapping => pgrxsc::write_mapping(rows, text, dest),
        }
    }

    /// Measures what is not yet written.
    pub fn written_len(self, rows: &[u32], text: &[u8]) -> Result<usize, Refusal> {
        match self {
            What::Section => pgrxsc::section_len(rows, text),
            What::Payload => pgrxsc::payload_len(rows, text),
            What::Metadata => pgrxsc::metadata_len(rows, text),
            What::Mapping => pgrxsc::mapping_len(rows, text),
        }
    }
}

/// Rows as a table has them.
pub fn numbers(rows: &[Row]) -> Vec<u32> {
    rows.iter().flat_map(|row| row.numbers()).collect()
}

/// Where a text starts in the bytes that it is a part of, and its length.
pub type Part = (usize, usize);

pub fn part(bytes: &[u8], text: &str) -> Part {
    (text.as_ptr().addr().wrapping_sub(bytes.as_ptr().addr()), text.len())
}

/// An SQL text: a part of the bytes that have the mapping, or of the buffer.
#[derive(Debug, PartialEq)]
pub enum SqlText {
    Bytes(Part),
    Buffer(Part),
}

/// Where the SQL text of the mapping at an offset is. In the buffer none is empty.
pub fn sql_text(bytes: &[u8], offset: u32, buffer: &mut [u8]) -> Result<SqlText, Refusal> {
    let buffer_start = buffer.as_ptr().addr();
    let text = pgrxsc::sql_text(bytes, offset, buffer)?;
    let (start, len) = part(bytes, text);
    Ok(match start.checked_add(len) {
        Some(end) if end <= bytes.len() => SqlText::Bytes((start, len)),
        _ => SqlText::Buffer((text.as_ptr().addr().wrapping_sub(buffer_start), len)),
    })
}
