use crate::ffi;
use crate::refusal::accepted;
use crate::Refusal;
use std::ops::Range;

/// A section of a 64-bit little-endian ELF file, found by its name, as a part of the file.
///
/// The schema section of an extension has the name [`ELF_SECTION_NAME`](crate::ELF_SECTION_NAME).
/// The file may have any length. The part found then goes to [`read_section`](crate::read_section),
/// which tests its length, and whose offsets and places count from the part's start.
///
/// The section is that of the first section header, from index 1 on, whose name in the section name
/// table equals the given one and is followed there by a zero byte inside the table. Extended
/// numbering is not supported.
///
/// # Errors
///
/// The first of these [`Refusal`]s that applies:
///
/// - 18: the file has fewer than 64 bytes, does not begin with `7F 45 4C 46`, is not 64-bit or not
///   little-endian, or the size of its section headers is not 64.
/// - 19: the file has no section headers, or the index of the section name table is not below their
///   number; or the table of the section headers or of the section names ends past the file, or the
///   section found does, unless its type is 8.
/// - 20: no section header has the name, as is always so if the name is empty or holds a zero byte;
///   or the section found is of type 8 (`SHT_NOBITS`): it has no bytes in the file.
///
/// ```
/// use pgrxsc::{find_section, Table, ELF_SECTION_NAME};
///
/// # // The file header, the section names, the section, which is of one schema, and the section
/// # // headers.
/// # let mut file = vec![0; 128 + 3 * 64];
/// # file[..6].copy_from_slice(b"\x7fELF\x02\x01");
/// # (file[40], file[58], file[60], file[62]) = (128, 64, 3, 2);
/// # file[64..83].copy_from_slice(b"\0.pgrxsc\0.shstrtab\0");
/// # (file[96], file[100]) = (17, 1);
/// # for (header, name, kind, offset, size) in [(192, 1, 1, 96, 21), (256, 9, 3, 64, 19)] {
/// #     (file[header], file[header + 4]) = (name, kind);
/// #     (file[header + 24], file[header + 32]) = (offset, size);
/// # }
/// // `file` is an extension that declares one schema.
/// let section = find_section(&file, ELF_SECTION_NAME)?;
/// let mut table = Table::new();
/// let reading = table.read_section(section)?;
/// assert_eq!(reading.entities().len(), 1);
///
/// assert_eq!(find_section(section, ELF_SECTION_NAME).unwrap_err().number(), 18);
/// assert_eq!(find_section(&file, ".pgrx").unwrap_err().number(), 20);
/// # Ok::<(), pgrxsc::Refusal>(())
/// ```
pub fn find_section(file: &[u8], name: impl AsRef<[u8]>) -> Result<&[u8], Refusal> {
    Ok(&file[section_range(file, name)?])
}

/// Where in the file the section lies that [`find_section`] finds.
///
/// A position in the file, as a linker map has it, less the range's start is the position in the
/// section, as [`Directory::at`](crate::Directory::at) and [`entity_at`](crate::entity_at) take it.
///
/// # Errors
///
/// Those of [`find_section`].
pub fn section_range(file: &[u8], name: impl AsRef<[u8]>) -> Result<Range<usize>, Refusal> {
    let (start, len) = accepted(ffi::find_section(file, name.as_ref()))?;
    // By the archive's contract the section lies in the file. That is tested again.
    let end = start.checked_add(len).filter(|&end| end <= file.len());
    Ok(start..end.expect("the archive gives sections that lie in the file that it was lent"))
}
