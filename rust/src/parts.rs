use crate::ffi::{self, Part};
use crate::refusal::accepted;
use crate::{Refusal, Row, LIMIT};

/// The text of a row, as a part of the bytes.
///
/// The row is tested, and need not come from a reading of these bytes.
///
/// # Errors
///
/// [`Refusal`] 1, or 15: the row is of another sort than text, it leaves the bytes, or the bytes
/// there are not UTF-8.
///
/// ```
/// use pgrxsc::{row_text, Row, Sort};
///
/// assert_eq!(row_text(b"a name", Row::new(Sort::Text, 2, 4))?, "name");
/// assert_eq!(row_text(b"a name", Row::new(Sort::Text, 2, 5)).unwrap_err().number(), 15);
/// # Ok::<(), pgrxsc::Refusal>(())
/// ```
pub fn row_text(bytes: &[u8], row: Row) -> Result<&str, Refusal> {
    part(Part::RowText, bytes, row)
}

/// The kept name of a row, as a part of the bytes: as much of its text as the server keeps of a
/// name.
///
/// The server is PostgreSQL, which keeps 63 bytes of a name, [`MOST_KEPT`](crate::MOST_KEPT), and
/// cuts a longer one at a character boundary. So the kept name ends at the greatest boundary at or
/// below 63 bytes, and a text of up to 63 bytes is kept whole. The whole text is tested, also
/// behind the cut.
///
/// # Errors
///
/// Those of [`row_text`].
///
/// ```
/// use pgrxsc::{kept_name, Row, Sort};
///
/// assert_eq!(kept_name(b"a name", Row::new(Sort::Text, 2, 4))?, "name");
///
/// // 80 bytes, and byte 63 is inside a character.
/// let long = "é".repeat(40);
/// assert_eq!(kept_name(long.as_bytes(), Row::new(Sort::Text, 0, 80))?, "é".repeat(31));
/// # Ok::<(), pgrxsc::Refusal>(())
/// ```
pub fn kept_name(bytes: &[u8], row: Row) -> Result<&str, Refusal> {
    part(Part::KeptName, bytes, row)
}

/// The SQL name of a declared function, as a part of the bytes. The row is that of the
/// declaration's name.
///
/// The SQL name is what comes after the last `::`, where the name is searched for `::` from its
/// start and a colon belongs to one of them at most. It is the whole name if there is no `::`.
///
/// # Errors
///
/// Those of [`row_text`].
///
/// ```
/// use pgrxsc::{sql_name, Row, Sort};
///
/// assert_eq!(sql_name(b"my::function", Row::new(Sort::Text, 0, 12))?, "function");
/// # Ok::<(), pgrxsc::Refusal>(())
/// ```
pub fn sql_name(bytes: &[u8], row: Row) -> Result<&str, Refusal> {
    part(Part::SqlName, bytes, row)
}

/// Where the SQL name starts in a declared function's name, or `None` if the name is not UTF-8.
///
/// The name may be of any length. What follows the start is the SQL name, as [`sql_name`] has it.
///
/// ```
/// use pgrxsc::name_start;
///
/// assert_eq!(name_start(b"my::function"), Some(4));
/// assert_eq!(name_start(b"function"), Some(0));
/// assert_eq!(name_start(b"my::\xff"), None);
/// ```
pub fn name_start(name: &[u8]) -> Option<usize> {
    let (is_text, start) = accepted(ffi::name_start(name)).expect("no name is refused");
    (is_text == 1).then_some(start)
}

fn part(part: Part, bytes: &[u8], row: Row) -> Result<&str, Refusal> {
    let (start, len) = accepted(ffi::part(part, bytes, row))?;
    Ok(text_at(bytes, start, len))
}

/// The SQL text of a mapping As or Numeric.
///
/// `offset` is that of the mapping's tag, as its row has it. The text of As is a part of the bytes.
/// The text of Numeric, as `NUMERIC(10, 2)`, is stored at the start of the buffer. The buffer must
/// have [`SQL_TEXT_SIZE`](crate::SQL_TEXT_SIZE) bytes, also for As, and changes only where such a
/// text is stored.
///
/// # Errors
///
/// [`Refusal`]s 1, 5 to 7 and 9 if there is no mapping at the offset, 10 if it is neither As nor
/// Numeric, and then 17 if the buffer has another size.
///
/// ```
/// use pgrxsc::{sql_text, SQL_TEXT_SIZE};
///
/// // Numeric: precision 10 and scale 2, each after a flag that says that it is there.
/// let mapping = [3, 1, 10, 0, 0, 0, 1, 2, 0, 0, 0];
/// let mut buffer = [0; SQL_TEXT_SIZE];
/// assert_eq!(sql_text(&mapping, 0, &mut buffer)?, "NUMERIC(10, 2)");
/// # Ok::<(), pgrxsc::Refusal>(())
/// ```
pub fn sql_text<'a>(
    bytes: &'a [u8],
    offset: u32,
    buffer: &'a mut [u8],
) -> Result<&'a str, Refusal> {
    let (in_buffer, answer) = ffi::sql_text(bytes, offset, buffer);
    let (start, len) = accepted(answer)?;
    Ok(text_at(if in_buffer { buffer } else { bytes }, start, len))
}

/// The number of pairs of entities in a section that repeat a path: they are of one kind, and their
/// full paths have the same bytes. A type and the ordering and hashing that it derives share a full
/// path, but are of three kinds, and so no pairs. Schemas have no full path.
///
/// To sort the paths it reserves four bytes for every 27 of the section, which is 2.4 MiB at most,
/// and gives them back. So it takes n log n comparisons for n entities: about a second at most for
/// any section.
///
/// # Errors
///
/// [`Refusal`]s 1 to 12: those of [`read_section`](crate::read_section) that do not depend on a
/// table.
///
/// ```
/// use pgrxsc::builder::{Builder, Function, PostgresOrd, PostgresType};
///
/// let mut builder = Builder::new();
/// builder.add(PostgresType { full_path: "ext::Dose", ..PostgresType::default() });
/// builder.add(PostgresOrd { full_path: "ext::Dose", ..PostgresOrd::default() });
/// assert_eq!(pgrxsc::path_repeats(&builder.to_section()?), Ok(0));
/// builder.add(Function { full_path: "ext::dose", ..Function::default() });
/// builder.add(Function { full_path: "ext::dose", ..Function::default() });
/// assert_eq!(pgrxsc::path_repeats(&builder.to_section()?), Ok(1));
/// # Ok::<(), pgrxsc::Refusal>(())
/// ```
pub fn path_repeats(bytes: &[u8]) -> Result<u64, Refusal> {
    let mut work = vec![0; work_len(bytes.len())];
    let (pairs, answer) = ffi::path_repeats(bytes, &mut work);
    accepted(answer)?;
    Ok(pairs)
}

/// How many numbers of work a section of this length needs at most: one for each entity with a full
/// path, whose entry takes 27 bytes or more. Bytes above the limit are not read.
const fn work_len(len: usize) -> usize {
    if len > LIMIT {
        0
    } else {
        len / 27
    }
}

/// Whether bytes are UTF-8, by RFC 3629. It is the test that the texts of a section have to pass.
///
/// ```
/// assert!(pgrxsc::is_text("déjà".as_bytes()));
/// assert!(!pgrxsc::is_text(b"\xed\xa0\x80")); // a surrogate
/// ```
pub fn is_text(bytes: &[u8]) -> bool {
    ffi::is_text(bytes)
}

/// How many bytes the server keeps of a name, or `None` if the bytes are not UTF-8, by RFC 3629.
///
/// It is the greatest character boundary at or below 63 bytes, which for a shorter name is its
/// length. The name may be of any length, and all of it is tested. What comes before the boundary is
/// the kept name, as [`kept_name`] has it.
///
/// ```
/// use pgrxsc::check_text;
///
/// assert_eq!(check_text(b"name"), Some(4));
/// assert_eq!(check_text(&[b'a'; 64]), Some(63));
/// assert_eq!(check_text("é".repeat(40).as_bytes()), Some(62));
/// assert_eq!(check_text(b"nam\xff"), None);
/// ```
pub fn check_text(bytes: &[u8]) -> Option<usize> {
    let (is_text, kept) = accepted(ffi::check_text(bytes)).expect("no bytes are refused");
    (is_text == 1).then_some(kept)
}

/// The text that the archive says is here.
///
/// By the archive's contract it lies in the bytes and is UTF-8. Both are tested again all the same,
/// at the cost of one more pass over the text: with `from_utf8_unchecked`, a wrong archive (of
/// another version, say) would be a cause of undefined behaviour in safe code.
pub(crate) fn text_at(bytes: &[u8], start: usize, len: usize) -> &str {
    bytes
        .get(start..)
        .and_then(|bytes| bytes.get(..len))
        .and_then(|bytes| std::str::from_utf8(bytes).ok())
        .expect("the archive gives texts that are UTF-8, in the bytes that it was lent")
}

#[cfg(test)]
mod tests {
    use super::{work_len, LIMIT};

    #[test]
    fn work_for_each_entity() {
        assert_eq!([0, 26, 27, 53, 54].map(work_len), [0, 0, 1, 1, 2]);
        assert_eq!(work_len(LIMIT), 621_378);
    }

    #[test]
    fn no_work_above_the_limit() {
        assert_eq!(work_len(LIMIT + 1), 0);
        assert_eq!(work_len(usize::MAX), 0);
    }
}
