use crate::directory;
use crate::ffi::Form;
use crate::reading::{self, Counts};
use crate::{records_len, Directory, Reading, Record, Refusal, RefusalKind, LIMIT, ROW_WIDTH};
use std::fmt;

/// How many numbers a table needs at most for a reading of these bytes: those of a row for each
/// byte. A table of that length never gets [`Refusal`] 13.
///
/// Most sections need far less. [`Table`] begins with less and grows.
pub const fn table_len(bytes: &[u8]) -> usize {
    let len = bytes.len();
    ROW_WIDTH * if len < LIMIT { len } else { LIMIT }
}

/// A table that grows as far as its readings need, and can be used for many.
///
/// For a large section it first holds a row for every eight bytes. If the rows do not fit, the bytes
/// are read again with twice the rows, and so on, up to a row for each byte, which bytes that are
/// nearly all tags or flags come to. A row takes four times [`ROW_WIDTH`] bytes. Where that is too
/// much memory, lend a table to [`read_section`] instead, which gives refusal 13 if it is too small.
///
/// For [`read_directory`](Self::read_directory) it also holds a list of [`records_len`] records,
/// which take no more bytes than the section has.
///
/// [`read_section`]: crate::read_section
///
/// ```
/// let mut table = pgrxsc::Table::new();
/// for section in [&[0, 0, 0][..], b"\x09\0\0\0\0\x04\0\0\0pgrx"] {
///     let reading = table.read_section(section)?;
///     assert_eq!(reading.entities().len(), 0);
/// }
/// # Ok::<(), pgrxsc::Refusal>(())
/// ```
#[derive(Default)]
pub struct Table {
    numbers: Vec<u32>,
    records: Vec<Record>,
}

impl Table {
    /// A table without memory of its own as yet.
    pub const fn new() -> Table {
        Table {
            numbers: Vec::new(),
            records: Vec::new(),
        }
    }

    /// Reads a whole section, as [`read_section`](crate::read_section) does.
    ///
    /// # Errors
    ///
    /// [`Refusal`]s 1 to 12.
    pub fn read_section<'b>(&mut self, bytes: &'b [u8]) -> Result<Reading<'b, '_>, Refusal> {
        self.read(Form::Section, bytes)
    }

    /// Reads a whole section and its directory, as [`read_directory`](crate::read_directory) does.
    ///
    /// # Errors
    ///
    /// [`Refusal`]s 1 to 12.
    pub fn read_directory<'b>(&mut self, bytes: &'b [u8]) -> Result<Directory<'b, '_>, Refusal> {
        let Table { numbers, records } = self;
        let list = lend(records, records_len(readable(bytes)));
        let counts = grow(numbers, bytes, |table| directory::fill(bytes, table, list))?;
        Ok(Directory::new(bytes, numbers, records, counts))
    }

    /// Reads one payload, as [`read_payload`](crate::read_payload) does.
    ///
    /// # Errors
    ///
    /// [`Refusal`]s 1 and 5 to 12.
    pub fn read_payload<'b>(&mut self, bytes: &'b [u8]) -> Result<Reading<'b, '_>, Refusal> {
        self.read(Form::Payload, bytes)
    }

    /// Reads one metadata record, as [`read_metadata`](crate::read_metadata) does.
    ///
    /// # Errors
    ///
    /// [`Refusal`]s 1, 5 to 7, 9 and 12.
    pub fn read_metadata<'b>(&mut self, bytes: &'b [u8]) -> Result<Reading<'b, '_>, Refusal> {
        self.read(Form::Metadata, bytes)
    }

    /// Reads one mapping, as [`read_mapping`](crate::read_mapping) does.
    ///
    /// # Errors
    ///
    /// [`Refusal`]s 1, 5 to 7, 9 and 12.
    pub fn read_mapping<'b>(&mut self, bytes: &'b [u8]) -> Result<Reading<'b, '_>, Refusal> {
        self.read(Form::Mapping, bytes)
    }

    fn read<'b>(&mut self, form: Form, bytes: &'b [u8]) -> Result<Reading<'b, '_>, Refusal> {
        let fill = |table: &mut [u32]| reading::fill(form, bytes, table);
        let counts = grow(&mut self.numbers, bytes, fill)?;
        Ok(Reading::new(bytes, &self.numbers, counts))
    }
}

/// The bytes, but none if there are more than the limit: these are not read.
fn readable(bytes: &[u8]) -> &[u8] {
    if bytes.len() > LIMIT {
        &[]
    } else {
        bytes
    }
}

/// Fills a table with the rows of these bytes, as often as it takes to make it large enough.
fn grow(
    numbers: &mut Vec<u32>,
    bytes: &[u8],
    mut fill: impl FnMut(&mut [u32]) -> Result<Counts, Refusal>,
) -> Result<Counts, Refusal> {
    // With a row for each byte 13 is never given.
    let most = readable(bytes).len();
    let guess = most.min(1024).max(most / 8);
    let mut rows = guess.max(numbers.len() / ROW_WIDTH).min(most);
    loop {
        match fill(lend(numbers, rows * ROW_WIDTH)) {
            Err(refusal) if too_small(refusal) && rows < most => {
                rows = (2 * rows).min(most);
            }
            answer => return answer,
        }
    }
}

/// This many of the items.
fn lend<T: Clone + Default>(items: &mut Vec<T>, len: usize) -> &mut [T] {
    if items.len() < len {
        // The old items are not kept: their memory is given back first.
        *items = Vec::new();
        *items = vec![T::default(); len];
    }
    &mut items[..len]
}

fn too_small(refusal: Refusal) -> bool {
    refusal.kind() == Some(RefusalKind::TableTooSmall)
}

/// Shows how many rows the table has, and how many records the list.
impl fmt::Debug for Table {
    fn fmt(&self, f: &mut fmt::Formatter<'_>) -> fmt::Result {
        f.debug_struct("Table")
            .field("rows", &(self.numbers.len() / ROW_WIDTH))
            .field("records", &self.records.len())
            .finish()
    }
}

#[cfg(test)]
mod tests {
    use super::{Table, LIMIT, ROW_WIDTH};
    use std::mem::size_of_val;

    #[test]
    fn little_for_texts() {
        // A schema whose module path is long.
        let len = 1 << 20;
        let mut payload = vec![1, 0, 0, 16, 0];
        payload.resize(5 + len, b'a');
        payload.extend([0; 12]);
        let mut table = Table::new();
        assert_eq!(table.read_payload(&payload).unwrap().rows().len(), 5);
        assert!(table.numbers.capacity() <= payload.len() / 8 * ROW_WIDTH);
    }

    #[test]
    fn at_most_twice_the_rows() {
        // An enum with many variants, all of empty name: a row for four bytes.
        let count: u32 = 100_000;
        let mut payload = vec![5];
        payload.extend([0; 24]);
        payload.extend(count.to_le_bytes());
        payload.resize(payload.len() + 4 * count as usize, 0);
        payload.extend([0, 0]);
        let mut table = Table::new();
        let rows = table.read_payload(&payload).unwrap().rows().len();
        assert_eq!(rows, 10 + count as usize);
        assert!(table.numbers.capacity() <= 2 * rows * ROW_WIDTH);
    }

    #[test]
    fn nothing_above_the_limit() {
        let mut table = Table::new();
        let refusal = table.read_section(&vec![0; LIMIT + 1]).unwrap_err();
        assert_eq!(refusal.number(), 1);
        assert_eq!(table.numbers.capacity(), 0);
        let refusal = table.read_directory(&vec![0; LIMIT + 1]).unwrap_err();
        assert_eq!(refusal.number(), 1);
        assert_eq!(table.numbers.capacity(), 0);
        assert_eq!(table.records.capacity(), 0);
    }

    #[test]
    fn records_for_directories_alone() {
        let section = [&[17, 0, 0, 0, 1][..], &[0; 16]].concat().repeat(1000);
        let mut table = Table::new();
        assert_eq!(table.read_section(&section).unwrap().entities().len(), 1000);
        assert_eq!(table.records.capacity(), 0);
        assert_eq!(table.read_directory(&section).unwrap().len(), 1000);
        assert!(size_of_val(&table.records[..]) <= section.len());
    }
}
