use crate::ffi::Answer;
use crate::{LIMIT, SQL_TEXT_SIZE};
use std::fmt;

/// Why bytes were not read, rows not written or a section not found: a number, and a place in the
/// bytes.
///
/// Each number has a name, as a [`RefusalKind`]:
///
/// | number | name | reason | place |
/// |---|---|---|---|
/// | 1 | [`InputTooLong`] | more than [`LIMIT`] bytes were given | 0 |
/// | 2 | [`PartialLength`] | an entry should begin, or padding, but one to three bytes are left and not all are zero | the first of them |
/// | 3 | [`ZeroLength`] | an entry's length is zero, and it is no padding: a byte after it is not zero | the length |
/// | 4 | [`EntryTooLong`] | an entry's length is more than the bytes after it | the length |
/// | 5 | [`Truncated`] | a value needs more bytes than are left for it | where the value begins; for a text whose length is there, where its bytes begin |
/// | 6 | [`BadFlag`] | a flag is neither 0 nor 1 | the flag |
/// | 7 | [`NotUtf8`] | a text is not UTF-8 | its first byte |
/// | 8 | [`UnknownKind`] | no entity has this kind | the kind |
/// | 9 | [`UnknownTag`] | another tag is unknown | the tag |
/// | 10 | [`NoSqlText`] | a mapping that must have an SQL text is neither As nor Numeric | the result of the declaration that has it; for [`sql_text`](crate::sql_text), the offset given |
/// | 11 | [`DeclaredError`] | a declaration's result is an error | the result |
/// | 12 | [`TrailingBytes`] | bytes are left after the entity, the record or the mapping | the first of them |
/// | 13 | [`TableTooSmall`] | the table is too small for the rows | 0 |
/// | 14 | [`BadRows`] | the rows to be written are not those of one record, mapping or entity, or, for a section, of one entity or more | 0 |
/// | 15 | [`BadTextRow`] | a text row lies outside the bytes or is not UTF-8 there, or a row given as text is none | 0 |
/// | 16 | [`OutputTooLong`] | more than [`LIMIT`] bytes would be written | 0 |
/// | 17 | [`BadBufferSize`] | the destination is too short, or the buffer for an SQL text has not [`SQL_TEXT_SIZE`] bytes | 0 |
/// | 18 | [`NotElf64`] | the file is no 64-bit little-endian ELF file with section headers of 64 bytes | 0 |
/// | 19 | [`BadSectionHeaders`] | the file has no section headers or no section name table, or one of the two tables ends past the file, or the section found does, unless its type is 8 | 0 |
/// | 20 | [`NoSuchSection`] | no section has the name given, or the section found is of type 8 (`SHT_NOBITS`), without bytes in the file | 0 |
/// | 21 | [`ListTooSmall`] | the list has fewer records than the section has entities | 0 |
///
/// A reading gives 1 before all others; then 2 to 4, for the first entry that is wrong in this way;
/// then 5 to 12, for the first value that is; then 13, which so says that nothing is wrong with the
/// bytes; and then, in [`read_directory`] alone, 21. A writer gives the first of 14 to 17 that
/// applies, and [`find_section`] the first of 18 to 20.
///
/// ```
/// use pgrxsc::{read_section, Refusal, RefusalKind};
///
/// // One entry, of one byte: an entity of kind 10.
/// let refusal = read_section(&[1, 0, 0, 0, 10], &mut []).unwrap_err();
/// assert_eq!(refusal, Refusal::new(8, 4));
/// assert_eq!(refusal.kind(), Some(RefusalKind::UnknownKind));
/// assert_eq!(refusal.to_string(), "the kind of the entity at byte 4 is unknown (refusal 8)");
/// ```
///
/// [`InputTooLong`]: RefusalKind::InputTooLong
/// [`PartialLength`]: RefusalKind::PartialLength
/// [`ZeroLength`]: RefusalKind::ZeroLength
/// [`EntryTooLong`]: RefusalKind::EntryTooLong
/// [`Truncated`]: RefusalKind::Truncated
/// [`BadFlag`]: RefusalKind::BadFlag
/// [`NotUtf8`]: RefusalKind::NotUtf8
/// [`UnknownKind`]: RefusalKind::UnknownKind
/// [`UnknownTag`]: RefusalKind::UnknownTag
/// [`NoSqlText`]: RefusalKind::NoSqlText
/// [`DeclaredError`]: RefusalKind::DeclaredError
/// [`TrailingBytes`]: RefusalKind::TrailingBytes
/// [`TableTooSmall`]: RefusalKind::TableTooSmall
/// [`BadRows`]: RefusalKind::BadRows
/// [`BadTextRow`]: RefusalKind::BadTextRow
/// [`OutputTooLong`]: RefusalKind::OutputTooLong
/// [`BadBufferSize`]: RefusalKind::BadBufferSize
/// [`NotElf64`]: RefusalKind::NotElf64
/// [`BadSectionHeaders`]: RefusalKind::BadSectionHeaders
/// [`NoSuchSection`]: RefusalKind::NoSuchSection
/// [`ListTooSmall`]: RefusalKind::ListTooSmall
/// [`read_directory`]: crate::read_directory
/// [`find_section`]: crate::find_section
#[derive(Clone, Copy, Debug, PartialEq, Eq, Hash)]
pub struct Refusal {
    number: u32,
    place: usize,
}

impl Refusal {
    /// The refusal of a number and a place, as they were stored, say, to be displayed later.
    pub const fn new(number: u32, place: usize) -> Refusal {
        Refusal { number, place }
    }

    /// Which refusal it is, 1 to 21.
    pub const fn number(self) -> u32 {
        self.number
    }

    /// Which refusal it is, by name. `None` for another number than 1 to 21, which only
    /// [`Refusal::new`] can give it.
    pub const fn kind(self) -> Option<RefusalKind> {
        RefusalKind::from_number(self.number)
    }

    /// Where in the bytes the reason lies, counted from their start; 0 for a refusal without place.
    pub const fn place(self) -> usize {
        self.place
    }
}

/// The names of the refusals. The table at [`Refusal`] has their reasons and places.
///
/// A later version may have more, so a `match` needs an arm for others.
#[derive(Clone, Copy, Debug, PartialEq, Eq, Hash)]
#[non_exhaustive]
pub enum RefusalKind {
    /// More than [`LIMIT`] bytes were given.
    InputTooLong = 1,
    /// One to three bytes are left for an entry's length or for padding, and not all are zero.
    PartialLength = 2,
    /// An entry's length is zero, and a byte after it is not.
    ZeroLength = 3,
    /// An entry's length is more than the bytes after it.
    EntryTooLong = 4,
    /// A value needs more bytes than are left for it.
    Truncated = 5,
    /// A flag is neither 0 nor 1.
    BadFlag = 6,
    /// A text is not UTF-8.
    NotUtf8 = 7,
    /// No entity has this kind.
    UnknownKind = 8,
    /// A tag that is no kind of an entity is unknown.
    UnknownTag = 9,
    /// A mapping that must have an SQL text is neither As nor Numeric.
    NoSqlText = 10,
    /// A declaration's result is an error.
    DeclaredError = 11,
    /// Bytes are left after the entity, the record or the mapping.
    TrailingBytes = 12,
    /// The table has fewer rows than the reading needs.
    TableTooSmall = 13,
    /// The rows to be written are not those of one record, mapping or entity, or, for a section, of
    /// one entity or more.
    BadRows = 14,
    /// A row is no text of the bytes given.
    BadTextRow = 15,
    /// More than [`LIMIT`] bytes would be written.
    OutputTooLong = 16,
    /// The destination is too short, or the buffer for an SQL text is of another size.
    BadBufferSize = 17,
    /// The file is no 64-bit little-endian ELF file with section headers of 64 bytes.
    NotElf64 = 18,
    /// The file has no section headers or no section name table, or one of the two tables, or the
    /// section found, ends past the file.
    BadSectionHeaders = 19,
    /// No section of the file has the name given, or the one found has no bytes in the file.
    NoSuchSection = 20,
    /// The list has fewer records than the section has entities.
    ListTooSmall = 21,
}

impl RefusalKind {
    /// The refusal's number, 1 to 21.
    pub const fn number(self) -> u32 {
        self as u32
    }

    /// The refusal of a number, if it is 1 to 21.
    pub const fn from_number(number: u32) -> Option<RefusalKind> {
        Some(match number {
            1 => RefusalKind::InputTooLong,
            2 => RefusalKind::PartialLength,
            3 => RefusalKind::ZeroLength,
            4 => RefusalKind::EntryTooLong,
            5 => RefusalKind::Truncated,
            6 => RefusalKind::BadFlag,
            7 => RefusalKind::NotUtf8,
            8 => RefusalKind::UnknownKind,
            9 => RefusalKind::UnknownTag,
            10 => RefusalKind::NoSqlText,
            11 => RefusalKind::DeclaredError,
            12 => RefusalKind::TrailingBytes,
            13 => RefusalKind::TableTooSmall,
            14 => RefusalKind::BadRows,
            15 => RefusalKind::BadTextRow,
            16 => RefusalKind::OutputTooLong,
            17 => RefusalKind::BadBufferSize,
            18 => RefusalKind::NotElf64,
            19 => RefusalKind::BadSectionHeaders,
            20 => RefusalKind::NoSuchSection,
            21 => RefusalKind::ListTooSmall,
            _ => return None,
        })
    }
}

/// The numbers a and b of an answer, or its refusal.
pub(crate) fn accepted([number, place, a, b]: Answer) -> Result<(usize, usize), Refusal> {
    let size = |n: u64| usize::try_from(n).expect("the archive counts no further than usize goes");
    if number == 0 {
        return Ok((size(a), size(b)));
    }
    let kind = u32::try_from(number)
        .ok()
        .and_then(RefusalKind::from_number)
        .expect("the archive gives a refusal by a number of 1 to 21");
    Err(Refusal::new(kind.number(), size(place)))
}

impl fmt::Display for Refusal {
    fn fmt(&self, f: &mut fmt::Formatter<'_>) -> fmt::Result {
        let Refusal { number, place } = self;
        let Some(kind) = self.kind() else {
            return write!(
                f,
                "the reason at byte {place} is one that this crate does not know (refusal {number})"
            );
        };
        match kind {
            RefusalKind::InputTooLong => write!(f, "there are more than {LIMIT} bytes"),
            RefusalKind::PartialLength => write!(
                f,
                "the section's last bytes, from byte {place} on, are too few for an entry \
                 and not all zero"
            ),
            RefusalKind::ZeroLength => write!(
                f,
                "the length at byte {place} is zero, but not all bytes after it are"
            ),
            RefusalKind::EntryTooLong => write!(
                f,
                "the length at byte {place} is more than the bytes after it"
            ),
            RefusalKind::Truncated => {
                write!(f, "more bytes are needed at byte {place} than are left")
            }
            RefusalKind::BadFlag => write!(f, "the flag at byte {place} is neither 0 nor 1"),
            RefusalKind::NotUtf8 => write!(f, "the text at byte {place} is not UTF-8"),
            RefusalKind::UnknownKind => {
                write!(f, "the kind of the entity at byte {place} is unknown")
            }
            RefusalKind::UnknownTag => write!(f, "the tag at byte {place} is unknown"),
            RefusalKind::NoSqlText => write!(
                f,
                "the mapping read at byte {place} has no SQL text: it is neither As nor Numeric"
            ),
            RefusalKind::DeclaredError => {
                write!(f, "the declaration's result at byte {place} is an error")
            }
            RefusalKind::TrailingBytes => write!(
                f,
                "bytes are left over from byte {place} on, where what is read has ended"
            ),
            RefusalKind::TableTooSmall => {
                write!(f, "the table has fewer rows than the reading needs")
            }
            RefusalKind::BadRows => write!(
                f,
                "the rows do not spell exactly one record, mapping or entity, or, for a section, \
                 one entity or more"
            ),
            RefusalKind::BadTextRow => write!(
                f,
                "a row is no text of the bytes given: it leaves them, or is not UTF-8 there, \
                 or is of another sort"
            ),
            RefusalKind::OutputTooLong => write!(f, "more than {LIMIT} bytes would be written"),
            RefusalKind::BadBufferSize => write!(
                f,
                "the destination is too short, or the buffer for an SQL text has not \
                 {SQL_TEXT_SIZE} bytes"
            ),
            RefusalKind::NotElf64 => write!(
                f,
                "the file is no 64-bit little-endian ELF file with section headers of 64 bytes"
            ),
            RefusalKind::BadSectionHeaders => write!(
                f,
                "the file has no section headers or no section name table, or one of the two \
                 tables, or the section found, ends past the file"
            ),
            RefusalKind::NoSuchSection => write!(
                f,
                "the file has no section of that name, or one without bytes in the file"
            ),
            RefusalKind::ListTooSmall => write!(
                f,
                "the list has fewer records than the section has entities"
            ),
        }?;
        write!(f, " (refusal {number})")
    }
}

impl std::error::Error for Refusal {}
