use crate::ffi::{self, Form};
use crate::parts::{kept_name, row_text, sql_name, sql_text, text_at};
use crate::refusal::accepted;
use crate::{EntityKind, Refusal, Row, Sort, ROW_WIDTH};
use std::fmt;
use std::iter::FusedIterator;
use std::ops::Range;
use std::slice::ChunksExact;

/// Reads a whole section: its entities, with the sentinels and the padding passed over.
///
/// `table` receives the rows, and 0 after them; after a refusal it has only 0. A table of
/// [`table_len`](crate::table_len) numbers is always large enough. See [`Table`](crate::Table) for
/// one that grows. The table stays borrowed as long as the [`Reading`] is in use.
///
/// # Errors
///
/// [`Refusal`]s 1 to 13. Whether bytes get one of 1 to 12, and which, does not depend on the table.
///
/// ```
/// use pgrxsc::{read_section, table_len, EntityKind};
///
/// // A schema: module path, name, file and line, all empty or 0.
/// let mut section = vec![17, 0, 0, 0, 1];
/// section.extend([0; 16]);
///
/// let mut table = vec![0; table_len(&section)];
/// let reading = read_section(&section, &mut table)?;
/// assert_eq!(reading.entities().len(), 1);
/// assert_eq!(reading.rows().len(), 5);
/// assert_eq!(reading.entities().next().unwrap().kind(), EntityKind::Schema);
/// # Ok::<(), pgrxsc::Refusal>(())
/// ```
pub fn read_section<'b, 't>(
    bytes: &'b [u8],
    table: &'t mut [u32],
) -> Result<Reading<'b, 't>, Refusal> {
    read(Form::Section, bytes, table)
}

/// Reads the payload of one entry, which is one entity, as [`read_section`] reads a section.
///
/// # Errors
///
/// [`Refusal`]s 1 and 5 to 13. A sentinel is no entity: it gets 8.
pub fn read_payload<'b, 't>(
    bytes: &'b [u8],
    table: &'t mut [u32],
) -> Result<Reading<'b, 't>, Refusal> {
    read(Form::Payload, bytes, table)
}

/// Reads one metadata record, as [`read_section`] reads a section. It has no entities.
///
/// # Errors
///
/// [`Refusal`]s 1, 5 to 7, 9, 12 and 13.
pub fn read_metadata<'b, 't>(
    bytes: &'b [u8],
    table: &'t mut [u32],
) -> Result<Reading<'b, 't>, Refusal> {
    read(Form::Metadata, bytes, table)
}

/// Reads one mapping, as [`read_section`] reads a section. It has no entities.
///
/// # Errors
///
/// [`Refusal`]s 1, 5 to 7, 9, 12 and 13.
pub fn read_mapping<'b, 't>(
    bytes: &'b [u8],
    table: &'t mut [u32],
) -> Result<Reading<'b, 't>, Refusal> {
    read(Form::Mapping, bytes, table)
}

fn read<'b, 't>(
    form: Form,
    bytes: &'b [u8],
    table: &'t mut [u32],
) -> Result<Reading<'b, 't>, Refusal> {
    let counts = fill(form, bytes, table)?;
    Ok(Reading::new(bytes, table, counts))
}

/// How much was read.
pub(crate) struct Counts {
    pub(crate) entities: usize,
    pub(crate) rows: usize,
}

/// Fills the table.
pub(crate) fn fill(form: Form, bytes: &[u8], table: &mut [u32]) -> Result<Counts, Refusal> {
    let (entities, rows) = accepted(ffi::read(form, bytes, table))?;
    Ok(Counts { entities, rows })
}

/// What was read: the bytes and their rows.
///
/// `'b` is the lifetime of the bytes and `'t` that of the table. Texts are parts of the bytes, so
/// they outlive the table:
///
/// ```
/// use pgrxsc::{read_section, table_len, Refusal};
///
/// fn texts(section: &[u8]) -> Result<Vec<&str>, Refusal> {
///     let mut table = vec![0; table_len(section)];
///     Ok(read_section(section, &mut table)?.texts().collect())
/// }
///
/// let section = b"\x1c\0\0\0\x01\x04\0\0\0path\x04\0\0\0name\x03\0\0\0a.b\x07\0\0\0";
/// assert_eq!(texts(section)?, ["path", "name", "a.b"]);
/// # Ok::<(), Refusal>(())
/// ```
///
/// The table cannot change while a reading of it is in use:
///
/// ```compile_fail,E0506
/// let mut table = [0; pgrxsc::ROW_WIDTH];
/// let reading = pgrxsc::read_section(&[], &mut table).unwrap();
/// table[0] = 1;
/// reading.rows();
/// ```
#[derive(Clone, Copy)]
pub struct Reading<'b, 't> {
    bytes: &'b [u8],
    numbers: &'t [u32],
    entities: usize,
}

impl<'b, 't> Reading<'b, 't> {
    /// Of a table that `fill` has filled, and its counts.
    pub(crate) fn new(bytes: &'b [u8], table: &'t [u32], counts: Counts) -> Self {
        Reading {
            bytes,
            numbers: &table[..counts.rows * ROW_WIDTH],
            entities: counts.entities,
        }
    }

    /// The entities, in the order of reading; `entities().len()` says how many there are. A
    /// metadata record or mapping has none.
    pub fn entities(&self) -> Entities<'b, 't> {
        Entities {
            bytes: self.bytes,
            rest: self.numbers,
            len: self.entities,
        }
    }

    /// The entity that has these of the rows.
    pub(crate) fn entity(&self, rows: Range<usize>) -> Entity<'b, 't> {
        let numbers = self
            .numbers
            .get(rows.start * ROW_WIDTH..rows.end * ROW_WIDTH)
            .expect("the archive gives the rows of an entity among those of the section");
        let first = Rows::new(numbers)
            .next()
            .expect("the archive gives a row for each entity");
        Entity {
            bytes: self.bytes,
            numbers,
            first,
        }
    }

    /// All rows, in the order of reading; `rows().len()` says how many there are.
    pub fn rows(&self) -> Rows<'t> {
        Rows::new(self.numbers)
    }

    /// The texts of all text rows, in the order of reading.
    pub fn texts(&self) -> Texts<'b, 't> {
        Texts {
            bytes: self.bytes,
            rows: self.rows(),
        }
    }

    /// The text of a row: [`row_text`] of the bytes that were read.
    ///
    /// # Errors
    ///
    /// [`Refusal`] 15, if the row is no text row of this reading.
    pub fn text(&self, row: Row) -> Result<&'b str, Refusal> {
        row_text(self.bytes, row)
    }

    /// As much of a row's text as the server keeps of a name: [`kept_name`] of the bytes that were
    /// read.
    ///
    /// # Errors
    ///
    /// [`Refusal`] 15, if the row is no text row of this reading.
    pub fn kept_name(&self, row: Row) -> Result<&'b str, Refusal> {
        kept_name(self.bytes, row)
    }

    /// The SQL name of a declared function: [`sql_name`] of the bytes that were read.
    ///
    /// # Errors
    ///
    /// [`Refusal`] 15, if the row is no text row of this reading.
    pub fn sql_name(&self, row: Row) -> Result<&'b str, Refusal> {
        sql_name(self.bytes, row)
    }

    /// The SQL text of the mapping whose tag is at an offset: [`sql_text`] of the bytes that were
    /// read.
    ///
    /// # Errors
    ///
    /// [`Refusal`]s 5 to 7, 9, 10 and 17.
    pub fn sql_text<'s>(&self, offset: u32, buffer: &'s mut [u8]) -> Result<&'s str, Refusal>
    where
        'b: 's,
    {
        sql_text(self.bytes, offset, buffer)
    }

    /// The bytes that were read.
    pub fn bytes(&self) -> &'b [u8] {
        self.bytes
    }

    /// The rows as the table has them, [`ROW_WIDTH`] numbers each. With [`bytes`](Self::bytes) as
    /// the text, they are what [`write_section`](crate::write_section),
    /// [`write_payload`](crate::write_payload), [`write_metadata`](crate::write_metadata) and
    /// [`write_mapping`](crate::write_mapping) take.
    pub fn numbers(&self) -> &'t [u32] {
        self.numbers
    }
}

/// Shows the counts and not the bytes, which may be many.
impl fmt::Debug for Reading<'_, '_> {
    fn fmt(&self, f: &mut fmt::Formatter<'_>) -> fmt::Result {
        f.debug_struct("Reading")
            .field("bytes", &self.bytes.len())
            .field("entities", &self.entities)
            .field("rows", &self.rows().len())
            .finish()
    }
}

/// The rows of one entity.
#[derive(Clone, Copy)]
pub struct Entity<'b, 't> {
    bytes: &'b [u8],
    numbers: &'t [u32],
    first: Row,
}

impl<'b, 't> Entity<'b, 't> {
    /// What the entity declares.
    pub fn kind(&self) -> EntityKind {
        EntityKind::from_number(self.first.value)
            .expect("the archive gives the kind of an entity by a number of 1 to 9")
    }

    /// The entity's own name, whole, however long it is: its field `name`, which in a trigger is
    /// called `function_name`. An ordering and a hashing have the name of their type. Custom SQL has
    /// a name only for other entities to refer to it.
    ///
    /// ```
    /// use pgrxsc::builder::{Builder, Schema};
    /// use pgrxsc::Table;
    ///
    /// let name = "a_long_name_".repeat(6);
    /// let mut builder = Builder::new();
    /// builder.add(Schema { module_path: "ext::api", name: &name, ..Schema::default() });
    /// let section = builder.to_section()?;
    ///
    /// let mut table = Table::new();
    /// let schema = table.read_section(&section)?.entities().next().unwrap();
    /// assert_eq!(schema.name(), name);
    /// assert_eq!(schema.kept_name(), &name[..63]);
    /// # Ok::<(), pgrxsc::Refusal>(())
    /// ```
    pub fn name(&self) -> &'b str {
        stored_text(self.bytes, self.name_row())
    }

    /// As much of the entity's [`name`](Self::name) as the server keeps. That is PostgreSQL, which
    /// keeps 63 bytes of a name and cuts a longer one at a character boundary, as the function
    /// [`kept_name`] does.
    pub fn kept_name(&self) -> &'b str {
        kept_name(self.bytes, self.name_row())
            .expect("the archive accepts the text rows that it gives")
    }

    /// The row of the entity's name.
    fn name_row(&self) -> Row {
        self.rows()
            .nth(name_index(self.kind()))
            .filter(|row| row.sort == Sort::Text)
            .expect("the archive gives a text row for the name of an entity")
    }

    /// Where the entity begins in the bytes: the offset of its kind.
    pub fn offset(&self) -> u32 {
        self.first.offset
    }

    /// The entity's rows; the first is that of its kind.
    pub fn rows(&self) -> Rows<'t> {
        Rows::new(self.numbers)
    }

    /// The texts of the entity's text rows.
    pub fn texts(&self) -> Texts<'b, 't> {
        Texts {
            bytes: self.bytes,
            rows: self.rows(),
        }
    }

    /// The entity's rows as the table has them, [`ROW_WIDTH`] numbers each. With the bytes that were
    /// read as the text, they are what [`write_payload`](crate::write_payload) takes.
    pub fn numbers(&self) -> &'t [u32] {
        self.numbers
    }
}

/// Which of an entity's rows is that of its name. Row 0 is that of the kind, and each field before
/// the name has one row.
const fn name_index(kind: EntityKind) -> usize {
    match kind {
        EntityKind::Function
        | EntityKind::Type
        | EntityKind::Enum
        | EntityKind::Ord
        | EntityKind::Hash
        | EntityKind::Trigger => 1,
        EntityKind::Schema => 2,    // after module_path
        EntityKind::Aggregate => 5, // after full_path, module_path, file and line
        EntityKind::CustomSql => 6, // after sql, module_path, full_path, file and line
    }
}

/// Shows kind, offset and the number of rows.
impl fmt::Debug for Entity<'_, '_> {
    fn fmt(&self, f: &mut fmt::Formatter<'_>) -> fmt::Result {
        f.debug_struct("Entity")
            .field("kind", &self.kind())
            .field("offset", &self.offset())
            .field("rows", &self.rows().len())
            .finish()
    }
}

/// The entities of a [`Reading`].
#[derive(Clone)]
pub struct Entities<'b, 't> {
    bytes: &'b [u8],
    /// The rows of the entities to come: of none but them, so the first is that of a kind.
    rest: &'t [u32],
    /// The number of the entities to come.
    len: usize,
}

impl<'b, 't> Iterator for Entities<'b, 't> {
    type Item = Entity<'b, 't>;

    fn next(&mut self) -> Option<Self::Item> {
        self.len = self.len.checked_sub(1)?;
        let mut rows = Rows::new(self.rest);
        let first = rows
            .next()
            .expect("the archive gives a row for each entity");
        let others = rows.take_while(|row| row.sort != Sort::Kind).count();
        let (numbers, rest) = self.rest.split_at((1 + others) * ROW_WIDTH);
        self.rest = rest;
        Some(Entity {
            bytes: self.bytes,
            numbers,
            first,
        })
    }

    fn size_hint(&self) -> (usize, Option<usize>) {
        (self.len, Some(self.len))
    }
}

impl ExactSizeIterator for Entities<'_, '_> {}
impl FusedIterator for Entities<'_, '_> {}

/// Rows, of a [`Reading`] or an [`Entity`].
#[derive(Clone)]
pub struct Rows<'t> {
    rows: ChunksExact<'t, u32>,
}

impl<'t> Rows<'t> {
    fn new(numbers: &'t [u32]) -> Self {
        Rows {
            rows: numbers.chunks_exact(ROW_WIDTH),
        }
    }
}

/// The row of the numbers that the archive stored.
fn stored(numbers: &[u32]) -> Row {
    numbers
        .try_into()
        .ok()
        .and_then(Row::from_numbers)
        .expect("the archive gives the sort of a row by a number of 1 to 6")
}

/// The text of a row that the archive stored: it needs no test by `pgrxsc_row_text`.
fn stored_text(bytes: &[u8], row: Row) -> &str {
    text_at(bytes, row.offset as usize, row.value as usize)
}

impl Iterator for Rows<'_> {
    type Item = Row;

    fn next(&mut self) -> Option<Row> {
        self.rows.next().map(stored)
    }

    fn nth(&mut self, n: usize) -> Option<Row> {
        self.rows.nth(n).map(stored)
    }

    fn size_hint(&self) -> (usize, Option<usize>) {
        self.rows.size_hint()
    }
}

impl DoubleEndedIterator for Rows<'_> {
    fn next_back(&mut self) -> Option<Row> {
        self.rows.next_back().map(stored)
    }
}

impl ExactSizeIterator for Rows<'_> {}
impl FusedIterator for Rows<'_> {}

/// The texts of a [`Reading`] or an [`Entity`].
#[derive(Clone)]
pub struct Texts<'b, 't> {
    bytes: &'b [u8],
    rows: Rows<'t>,
}

impl<'b> Iterator for Texts<'b, '_> {
    type Item = &'b str;

    fn next(&mut self) -> Option<&'b str> {
        let row = self.rows.find(|row| row.sort == Sort::Text)?;
        Some(stored_text(self.bytes, row))
    }

    fn size_hint(&self) -> (usize, Option<usize>) {
        (0, Some(self.rows.len()))
    }
}

impl DoubleEndedIterator for Texts<'_, '_> {
    fn next_back(&mut self) -> Option<Self::Item> {
        let row = self.rows.rfind(|row| row.sort == Sort::Text)?;
        Some(stored_text(self.bytes, row))
    }
}

impl FusedIterator for Texts<'_, '_> {}
