use crate::ffi;
use crate::reading::Counts;
use crate::refusal::accepted;
use crate::{Entity, EntityKind, Reading, Refusal, LIMIT};
use std::fmt;
use std::ops::Range;
use std::slice;

/// Reads a whole section, as [`read_section`](crate::read_section) does, and its directory: a
/// [`Record`] for each entity.
///
/// `table` receives the rows, as in [`read_section`](crate::read_section). `records` receives the
/// records, in the order of reading. Those after them do not change, and after a refusal none does,
/// while the table then has only 0. A list of [`records_len`] records is always large enough. A
/// [`Table`](crate::Table) holds both. They stay borrowed as long as the [`Directory`] is in use.
///
/// # Errors
///
/// [`Refusal`]s 1 to 13, which are those of [`read_section`](crate::read_section), and then 21: the
/// list has fewer records than the section has entities.
///
/// ```
/// use pgrxsc::{read_directory, records_len, table_len, Record};
///
/// // Two schemas: module path, name, file and line, all empty or 0.
/// let section = [&[17, 0, 0, 0, 1][..], &[0; 16], &[17, 0, 0, 0, 1], &[0; 16]].concat();
///
/// let mut table = vec![0; table_len(&section)];
/// let mut records = vec![Record::default(); records_len(&section)];
/// let directory = read_directory(&section, &mut table, &mut records)?;
/// assert_eq!(directory.len(), 2);
/// assert_eq!(records[1], Record { kind: 1, start: 21, length: 21, first_row: 5, row_count: 5 });
///
/// let refusal = read_directory(&section, &mut table, &mut records[..1]).unwrap_err();
/// assert_eq!(refusal.number(), 21);
/// # Ok::<(), pgrxsc::Refusal>(())
/// ```
pub fn read_directory<'b, 't>(
    bytes: &'b [u8],
    table: &'t mut [u32],
    records: &'t mut [Record],
) -> Result<Directory<'b, 't>, Refusal> {
    let counts = fill(bytes, table, records)?;
    Ok(Directory::new(bytes, table, records, counts))
}

/// Fills the table and the list.
pub(crate) fn fill(
    bytes: &[u8],
    table: &mut [u32],
    records: &mut [Record],
) -> Result<Counts, Refusal> {
    let (entities, rows) = accepted(ffi::read_directory(bytes, table, records))?;
    Ok(Counts { entities, rows })
}

/// The index of the entity whose entry holds a position of a section, or `None` if no entity does.
///
/// The position counts from the section's start. An entry begins with the four bytes of its length.
/// Sentinels, padding and what is past the section's end belong to no entity. Each call reads the
/// whole section; for many positions, [`Directory::at`] finds the same.
///
/// # Errors
///
/// [`Refusal`]s 1 to 12: those of [`read_section`](crate::read_section) that do not depend on a
/// table.
///
/// ```
/// use pgrxsc::entity_at;
///
/// // A sentinel, a schema, and padding.
/// let section = b"\x09\0\0\0\0\x04\0\0\0pgrx\
///                 \x12\0\0\0\x01\x01\0\0\0a\0\0\0\0\0\0\0\0\x01\0\0\0\
///                 \0\0\0";
/// assert_eq!(entity_at(section, 12), Ok(None));
/// assert_eq!(entity_at(section, 13), Ok(Some(0)));
/// assert_eq!(entity_at(section, 34), Ok(Some(0)));
/// assert_eq!(entity_at(section, 35), Ok(None));
/// assert_eq!(entity_at(&section[..34], 0).unwrap_err().number(), 4);
/// ```
pub fn entity_at(bytes: &[u8], position: u64) -> Result<Option<usize>, Refusal> {
    let (held, index) = accepted(ffi::entity_at(bytes, position))?;
    Ok((held == 1).then_some(index))
}

/// How many records a list needs at most for the directory of these bytes: one for every 21 bytes,
/// which are those of the smallest entry of an entity. A list of that length never gets [`Refusal`]
/// 21.
pub const fn records_len(bytes: &[u8]) -> usize {
    let len = bytes.len();
    (if len < LIMIT { len } else { LIMIT }) / 21
}

/// Where an entity lies in a section, and which of the rows are its own. The records of a section are
/// its [`Directory`].
///
/// The default, all 0, is the record of no entity. A list of such can be lent to [`read_directory`].
#[derive(Clone, Copy, Debug, Default, PartialEq, Eq, Hash)]
#[repr(C)]
pub struct Record {
    /// The number of the entity's kind, as [`EntityKind::number`] gives it.
    pub kind: u32,
    /// Where the entity's entry starts, counted from the section's start. An entry begins with the
    /// four bytes of its length.
    pub start: u32,
    /// How many bytes the entry has, those four included.
    pub length: u32,
    /// The index of the entity's first row, which is that of its kind. The rows of a section count
    /// from 0.
    pub first_row: u32,
    /// How many rows the entity has.
    pub row_count: u32,
}

impl Record {
    /// What the entity declares. `None` for another number than 1 to 9, which no record of a
    /// directory has.
    pub const fn entity_kind(self) -> Option<EntityKind> {
        EntityKind::from_number(self.kind)
    }

    /// The bytes of the entity's entry, as a range of the section.
    pub const fn entry(self) -> Range<usize> {
        let start = self.start as usize;
        start..start + self.length as usize
    }

    /// The entity's rows, as a range of the section's. [`Directory::entity`] gives the rows
    /// themselves.
    pub const fn rows(self) -> Range<usize> {
        let first = self.first_row as usize;
        first..first + self.row_count as usize
    }

    /// Whether the entity's entry holds a position, counted from the section's start.
    pub const fn contains(self, position: u64) -> bool {
        let start = self.start as u64;
        start <= position && position < start + self.length as u64
    }
}

/// A section that was read, with a [`Record`] for each of its entities.
///
/// It can be asked which entity holds a position of the section, and has the entity of each index:
///
/// ```
/// use pgrxsc::builder::{Builder, Function, Schema};
/// use pgrxsc::{EntityKind, Table};
///
/// let mut builder = Builder::new();
/// builder.add(Schema { name: "api", ..Schema::default() });
/// builder.add(Function { name: "one", ..Function::default() });
/// let section = builder.to_section()?;
///
/// let mut table = Table::new();
/// let directory = table.read_directory(&section)?;
/// for record in &directory {
///     println!("{:?} at bytes {:?}", record.entity_kind(), record.entry());
/// }
///
/// let (index, record) = directory.at(30).unwrap();
/// assert_eq!(index, 1);
/// assert_eq!(record.entry(), 24..section.len());
/// let function = directory.entity(index).unwrap();
/// assert_eq!(function.kind(), EntityKind::Function);
/// assert_eq!(function.texts().next(), Some("one"));
/// # Ok::<(), pgrxsc::Refusal>(())
/// ```
///
/// `'b` is the lifetime of the bytes and `'t` that of the table and the list.
#[derive(Clone, Copy)]
pub struct Directory<'b, 't> {
    reading: Reading<'b, 't>,
    records: &'t [Record],
}

impl<'b, 't> Directory<'b, 't> {
    /// Of a table and a list that `fill` has filled, and its counts.
    pub(crate) fn new(
        bytes: &'b [u8],
        table: &'t [u32],
        records: &'t [Record],
        counts: Counts,
    ) -> Self {
        Directory {
            records: &records[..counts.entities],
            reading: Reading::new(bytes, table, counts),
        }
    }

    /// The reading, which has the rows.
    pub fn reading(&self) -> Reading<'b, 't> {
        self.reading
    }

    /// The records, one for each entity, in the order of reading.
    pub fn records(&self) -> &'t [Record] {
        self.records
    }

    /// The records, one after another.
    pub fn iter(&self) -> slice::Iter<'t, Record> {
        self.records.iter()
    }

    /// How many records there are, which is how many entities the section has.
    pub fn len(&self) -> usize {
        self.records.len()
    }

    /// Whether there are no records, since the section has no entities.
    pub fn is_empty(&self) -> bool {
        self.records.is_empty()
    }

    /// The record of the entity of this index, if there are as many.
    pub fn get(&self, index: usize) -> Option<&'t Record> {
        self.records.get(index)
    }

    /// The entity of this index, if there are as many. It is found without a walk over the entities
    /// before it.
    pub fn entity(&self, index: usize) -> Option<Entity<'b, 't>> {
        let record = self.get(index)?;
        Some(self.reading.entity(record.rows()))
    }

    /// The entity whose entry holds a position, by its index and its record, or `None` if no entity
    /// does. The position counts from the section's start.
    ///
    /// The index is that of [`entity_at`]. Here it is found by a binary search.
    pub fn at(&self, position: u64) -> Option<(usize, &'t Record)> {
        let starts = |record: &Record| u64::from(record.start) <= position;
        let index = self.records.partition_point(starts).checked_sub(1)?;
        let record = self.get(index)?;
        record.contains(position).then_some((index, record))
    }
}

impl<'t> IntoIterator for &Directory<'_, 't> {
    type Item = &'t Record;
    type IntoIter = slice::Iter<'t, Record>;

    fn into_iter(self) -> Self::IntoIter {
        self.iter()
    }
}

/// Shows the counts and not the bytes, which may be many.
impl fmt::Debug for Directory<'_, '_> {
    fn fmt(&self, f: &mut fmt::Formatter<'_>) -> fmt::Result {
        f.debug_struct("Directory")
            .field("bytes", &self.reading.bytes().len())
            .field("entities", &self.len())
            .field("rows", &self.reading.rows().len())
            .finish()
    }
}
