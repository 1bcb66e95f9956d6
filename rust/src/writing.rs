use crate::ffi::{self, Answer, Written};
use crate::refusal::accepted;
use crate::Refusal;

/// Writes a metadata record to the start of `dest`, and gives its length.
///
/// `rows` has the record's rows as numbers ([`Row::numbers`](crate::Row::numbers)). The offset of a
/// text row counts from the start of `text`; the other offsets may be any. The bytes of `dest` after
/// the record do not change, and after a refusal none does. [`metadata_len`] tells how many bytes
/// `dest` must have.
///
/// # Errors
///
/// [`Refusal`]s 14 to 17.
///
/// ```
/// use pgrxsc::{read_metadata, table_len, write_metadata};
///
/// // No resolution; as an argument, Skip; returned, one of Skip.
/// let record = [0, 1, 5, 1, 1, 5];
/// let mut table = vec![0; table_len(&record)];
/// let reading = read_metadata(&record, &mut table)?;
///
/// let mut dest = [0; 8];
/// let len = write_metadata(reading.numbers(), reading.bytes(), &mut dest)?;
/// assert_eq!(dest[..len], record);
/// # Ok::<(), pgrxsc::Refusal>(())
/// ```
pub fn write_metadata(rows: &[u32], text: &[u8], dest: &mut [u8]) -> Result<usize, Refusal> {
    length(ffi::write(Written::Metadata, rows, text, dest))
}

/// Writes a mapping to the start of `dest`, as [`write_metadata`] writes a record. [`mapping_len`]
/// tells how many bytes `dest` must have.
///
/// # Errors
///
/// [`Refusal`]s 14 to 17.
///
/// ```
/// use pgrxsc::{write_mapping, Row, Sort};
///
/// // As, with its text.
/// let rows = [Row::new(Sort::Tag, 0, 1), Row::new(Sort::Text, 0, 4)];
/// let rows: Vec<u32> = rows.into_iter().flat_map(Row::numbers).collect();
///
/// let mut dest = [0; 9];
/// assert_eq!(write_mapping(&rows, b"TEXT", &mut dest), Ok(9));
/// assert_eq!(&dest, b"\x01\x04\0\0\0TEXT");
/// ```
pub fn write_mapping(rows: &[u32], text: &[u8], dest: &mut [u8]) -> Result<usize, Refusal> {
    length(ffi::write(Written::Mapping, rows, text, dest))
}

/// Writes one entity as a payload to the start of `dest`, as [`write_metadata`] writes a record.
/// [`payload_len`] tells how many bytes `dest` must have. A [`Builder`](crate::builder::Builder)
/// makes the rows and the text of an entity that was not read.
///
/// Rows that were read are written back as the bytes that they were read from, also if they are
/// those of one entity of a section: `text` is then the section, since the offsets count from its
/// start.
///
/// # Errors
///
/// [`Refusal`]s 14 to 17. The rows of a declaration that reads as 10 or 11 get 14.
///
/// ```
/// use pgrxsc::{write_payload, Table};
///
/// // Two schemas.
/// let section = b"\x12\0\0\0\x01\x01\0\0\0a\0\0\0\0\0\0\0\0\x01\0\0\0\
///                 \x12\0\0\0\x01\x01\0\0\0b\0\0\0\0\0\0\0\0\x02\0\0\0";
/// let mut table = Table::new();
/// let second = table.read_section(section)?.entities().nth(1).unwrap();
///
/// let mut dest = [0; 18];
/// assert_eq!(write_payload(second.numbers(), section, &mut dest), Ok(18));
/// assert_eq!(dest, section[26..]);
/// # Ok::<(), pgrxsc::Refusal>(())
/// ```
pub fn write_payload(rows: &[u32], text: &[u8], dest: &mut [u8]) -> Result<usize, Refusal> {
    length(ffi::write(Written::Payload, rows, text, dest))
}

/// Writes one or more entities as a section to the start of `dest`, as [`write_payload`] writes one:
/// an entry for each, without sentinels and without padding. [`section_len`] tells how many bytes
/// `dest` must have.
///
/// So a section that was read is written back byte for byte, but for its sentinels and its padding,
/// if it has an entity.
///
/// # Errors
///
/// [`Refusal`]s 14 to 17. No rows are no section: they get 14.
///
/// ```
/// use pgrxsc::{section_len, write_section, Table};
///
/// // A sentinel, a schema, and padding.
/// let section = b"\x09\0\0\0\0\x04\0\0\0pgrx\
///                 \x12\0\0\0\x01\x01\0\0\0a\0\0\0\0\0\0\0\0\x01\0\0\0\
///                 \0\0\0";
/// let mut table = Table::new();
/// let reading = table.read_section(section)?;
///
/// let mut dest = vec![0; section_len(reading.numbers(), reading.bytes())?];
/// write_section(reading.numbers(), reading.bytes(), &mut dest)?;
/// assert_eq!(dest, section[13..35]);
/// # Ok::<(), pgrxsc::Refusal>(())
/// ```
pub fn write_section(rows: &[u32], text: &[u8], dest: &mut [u8]) -> Result<usize, Refusal> {
    length(ffi::write(Written::Section, rows, text, dest))
}

/// Measures a metadata record before it is written: gives the length that [`write_metadata`] writes
/// from the same rows and text, and so the number of bytes that `dest` must have.
///
/// # Errors
///
/// [`Refusal`]s 14 to 16, which are those of the writing.
///
/// ```
/// use pgrxsc::{metadata_len, write_metadata, Row, Sort};
///
/// // No resolution; as an argument, Skip; returned, one of As with its text.
/// let rows = [
///     Row::new(Sort::Flag, 0, 0),
///     Row::new(Sort::Tag, 0, 1),
///     Row::new(Sort::Tag, 0, 5),
///     Row::new(Sort::Tag, 0, 1),
///     Row::new(Sort::Tag, 0, 1),
///     Row::new(Sort::Tag, 0, 1),
///     Row::new(Sort::Text, 0, 4),
/// ];
/// let rows: Vec<u32> = rows.into_iter().flat_map(Row::numbers).collect();
///
/// let mut dest = vec![0; metadata_len(&rows, b"TEXT")?];
/// write_metadata(&rows, b"TEXT", &mut dest)?;
/// assert_eq!(dest, b"\0\x01\x05\x01\x01\x01\x04\0\0\0TEXT");
/// # Ok::<(), pgrxsc::Refusal>(())
/// ```
pub fn metadata_len(rows: &[u32], text: &[u8]) -> Result<usize, Refusal> {
    length(ffi::written_len(Written::Metadata, rows, text))
}

/// Measures a mapping before [`write_mapping`] writes it, as [`metadata_len`] measures a record.
///
/// # Errors
///
/// [`Refusal`]s 14 to 16.
///
/// ```
/// use pgrxsc::{mapping_len, write_mapping, RefusalKind, Row, Sort};
///
/// // As, with its text.
/// let rows = [Row::new(Sort::Tag, 0, 1), Row::new(Sort::Text, 0, 4)];
/// let rows: Vec<u32> = rows.into_iter().flat_map(Row::numbers).collect();
///
/// let mut dest = vec![0; 8];
/// let refusal = write_mapping(&rows, b"TEXT", &mut dest).unwrap_err();
/// assert_eq!(refusal.kind(), Some(RefusalKind::BadBufferSize));
///
/// dest.resize(mapping_len(&rows, b"TEXT")?, 0);
/// assert_eq!(write_mapping(&rows, b"TEXT", &mut dest), Ok(9));
/// # Ok::<(), pgrxsc::Refusal>(())
/// ```
pub fn mapping_len(rows: &[u32], text: &[u8]) -> Result<usize, Refusal> {
    length(ffi::written_len(Written::Mapping, rows, text))
}

/// Measures one entity's payload before [`write_payload`] writes it, as [`metadata_len`] measures a
/// record.
///
/// # Errors
///
/// [`Refusal`]s 14 to 16.
pub fn payload_len(rows: &[u32], text: &[u8]) -> Result<usize, Refusal> {
    length(ffi::written_len(Written::Payload, rows, text))
}

/// Measures a section before [`write_section`] writes it, as [`metadata_len`] measures a record. The
/// length has the four bytes before each payload in it.
///
/// # Errors
///
/// [`Refusal`]s 14 to 16.
pub fn section_len(rows: &[u32], text: &[u8]) -> Result<usize, Refusal> {
    length(ffi::written_len(Written::Section, rows, text))
}

/// What is written, in as many bytes as it takes.
pub(crate) fn written(what: Written, rows: &[u32], text: &[u8]) -> Result<Vec<u8>, Refusal> {
    let mut dest = vec![0; length(ffi::written_len(what, rows, text))?];
    length(ffi::write(what, rows, text, &mut dest))?;
    Ok(dest)
}

/// The length in an answer, or its refusal.
fn length(answer: Answer) -> Result<usize, Refusal> {
    let (len, _) = accepted(answer)?;
    Ok(len)
}
