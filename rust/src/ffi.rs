//! The archive's functions, as `include/pgrxsc.h` declares them, each in a safe function. All unsafe
//! code of the crate is here.
//!
//! What the header asks of a caller is met by the types: a slice's pointer is not null, also where
//! the slice is empty, and is good for the slice's length; what is lent as `&mut` overlaps nothing
//! else that is lent. That the declarations are those of the archive is tested at the first call, by
//! the version.

use crate::{Record, Row, VERSION};
use std::sync::atomic::{AtomicBool, Ordering};

/// The four numbers of an answer: a refusal's number and place, then a and b.
pub(crate) type Answer = [u64; 4];

/// What is lent for an answer: no number of it could be taken for one of the archive's.
const UNANSWERED: Answer = [u64::MAX; 4];

mod archive {
    use crate::Record;

    extern "C" {
        pub fn pgrxsc_version() -> u32;
        pub fn pgrxsc_find_section(
            file: *const u8,
            file_len: usize,
            name: *const u8,
            name_len: usize,
            answer: *mut u64,
        );
        pub fn pgrxsc_read_section(
            bytes: *const u8,
            len: usize,
            table: *mut u32,
            table_len: usize,
            answer: *mut u64,
        );
        pub fn pgrxsc_read_payload(
            bytes: *const u8,
            len: usize,
            table: *mut u32,
            table_len: usize,
            answer: *mut u64,
        );
        pub fn pgrxsc_read_metadata(
            bytes: *const u8,
            len: usize,
            table: *mut u32,
            table_len: usize,
            answer: *mut u64,
        );
        pub fn pgrxsc_read_mapping(
            bytes: *const u8,
            len: usize,
            table: *mut u32,
            table_len: usize,
            answer: *mut u64,
        );
        pub fn pgrxsc_read_directory(
            bytes: *const u8,
            len: usize,
            table: *mut u32,
            table_len: usize,
            records: *mut Record,
            records_len: usize,
            answer: *mut u64,
        );
        pub fn pgrxsc_entity_at(bytes: *const u8, len: usize, position: u64, answer: *mut u64);
        pub fn pgrxsc_row_text(
            bytes: *const u8,
            len: usize,
            sort: u32,
            offset: u32,
            value: u32,
            answer: *mut u64,
        );
        pub fn pgrxsc_kept_name(
            bytes: *const u8,
            len: usize,
            sort: u32,
            offset: u32,
            value: u32,
            answer: *mut u64,
        );
        pub fn pgrxsc_sql_name(
            bytes: *const u8,
            len: usize,
            sort: u32,
            offset: u32,
            value: u32,
            answer: *mut u64,
        );
        pub fn pgrxsc_name_start(bytes: *const u8, len: usize, answer: *mut u64);
        pub fn pgrxsc_sql_text(
            bytes: *const u8,
            len: usize,
            offset: u32,
            buffer: *mut u8,
            buffer_len: usize,
            answer: *mut u64,
        ) -> u32;
        pub fn pgrxsc_write_metadata(
            rows: *const u32,
            rows_len: usize,
            text: *const u8,
            text_len: usize,
            dest: *mut u8,
            dest_len: usize,
            answer: *mut u64,
        );
        pub fn pgrxsc_write_mapping(
            rows: *const u32,
            rows_len: usize,
            text: *const u8,
            text_len: usize,
            dest: *mut u8,
            dest_len: usize,
            answer: *mut u64,
        );
        pub fn pgrxsc_write_payload(
            rows: *const u32,
            rows_len: usize,
            text: *const u8,
            text_len: usize,
            dest: *mut u8,
            dest_len: usize,
            answer: *mut u64,
        );
        pub fn pgrxsc_write_section(
            rows: *const u32,
            rows_len: usize,
            text: *const u8,
            text_len: usize,
            dest: *mut u8,
            dest_len: usize,
            answer: *mut u64,
        );
        pub fn pgrxsc_metadata_len(
            rows: *const u32,
            rows_len: usize,
            text: *const u8,
            text_len: usize,
            answer: *mut u64,
        );
        pub fn pgrxsc_mapping_len(
            rows: *const u32,
            rows_len: usize,
            text: *const u8,
            text_len: usize,
            answer: *mut u64,
        );
        pub fn pgrxsc_payload_len(
            rows: *const u32,
            rows_len: usize,
            text: *const u8,
            text_len: usize,
            answer: *mut u64,
        );
        pub fn pgrxsc_section_len(
            rows: *const u32,
            rows_len: usize,
            text: *const u8,
            text_len: usize,
            answer: *mut u64,
        );
        pub fn pgrxsc_path_repeats(
            bytes: *const u8,
            len: usize,
            work: *mut u32,
            work_len: usize,
            answer: *mut u64,
        ) -> u64;
        pub fn pgrxsc_is_text(bytes: *const u8, len: usize) -> bool;
        pub fn pgrxsc_check_text(bytes: *const u8, len: usize, answer: *mut u64);
    }
}

/// Panics if the archive is of another version than the crate. Every function below begins with
/// this; all calls but the first cost one load.
fn check_version() {
    static CHECKED: AtomicBool = AtomicBool::new(false);
    if !CHECKED.load(Ordering::Relaxed) {
        // SAFETY: the function takes nothing and changes nothing.
        compare_version(unsafe { archive::pgrxsc_version() });
        CHECKED.store(true, Ordering::Relaxed);
    }
}

fn compare_version(archive: u32) {
    assert!(
        archive == VERSION,
        "libpgrxsc.a is of version {archive}, but the crate pgrxsc is of version {VERSION}. Run \
         `rt lib` in the folder crates/pgrxsc of the repository that has the crate, or name the \
         folder of an archive made from the same state of the repository in the environment variable \
         PGRXSC_LIB."
    );
}

/// a is the section's start in the file, b its length.
pub(crate) fn find_section(file: &[u8], name: &[u8]) -> Answer {
    check_version();
    let mut answer = UNANSWERED;
    // SAFETY: the pointers and lengths are those of slices; the answer has four numbers and
    // overlaps nothing.
    unsafe {
        archive::pgrxsc_find_section(
            file.as_ptr(),
            file.len(),
            name.as_ptr(),
            name.len(),
            answer.as_mut_ptr(),
        );
    }
    answer
}

/// What bytes are read as.
#[derive(Clone, Copy)]
pub(crate) enum Form {
    Section,
    Payload,
    Metadata,
    Mapping,
}

/// a is the number of entities, b the number of rows.
pub(crate) fn read(form: Form, bytes: &[u8], table: &mut [u32]) -> Answer {
    check_version();
    let function = match form {
        Form::Section => archive::pgrxsc_read_section,
        Form::Payload => archive::pgrxsc_read_payload,
        Form::Metadata => archive::pgrxsc_read_metadata,
        Form::Mapping => archive::pgrxsc_read_mapping,
    };
    let mut answer = UNANSWERED;
    // SAFETY: the pointers and lengths are those of slices, the answer has four numbers, and
    // `table` and `answer` overlap nothing, being borrowed mutably.
    unsafe {
        function(
            bytes.as_ptr(),
            bytes.len(),
            table.as_mut_ptr(),
            table.len(),
            answer.as_mut_ptr(),
        );
    }
    answer
}

/// a is the number of entities, b the number of rows.
pub(crate) fn read_directory(bytes: &[u8], table: &mut [u32], records: &mut [Record]) -> Answer {
    check_version();
    let mut answer = UNANSWERED;
    // SAFETY: the pointers and lengths are those of slices, the answer has four numbers, and
    // `table`, `records` and `answer` overlap nothing, being borrowed mutably. A record is laid out
    // as in the header, and its five numbers may be any.
    unsafe {
        archive::pgrxsc_read_directory(
            bytes.as_ptr(),
            bytes.len(),
            table.as_mut_ptr(),
            table.len(),
            records.as_mut_ptr(),
            records.len(),
            answer.as_mut_ptr(),
        );
    }
    answer
}

/// a is 1 if the entry of an entity holds the position, else 0; b is the entity's index.
pub(crate) fn entity_at(bytes: &[u8], position: u64) -> Answer {
    check_version();
    let mut answer = UNANSWERED;
    // SAFETY: pointer and length are those of a slice; the answer has four numbers and overlaps
    // nothing. Any position may be given.
    unsafe {
        archive::pgrxsc_entity_at(bytes.as_ptr(), bytes.len(), position, answer.as_mut_ptr());
    }
    answer
}

/// What part of a text a row is asked for.
#[derive(Clone, Copy)]
pub(crate) enum Part {
    RowText,
    KeptName,
    SqlName,
}

/// a is the part's start in the bytes, b its length.
pub(crate) fn part(part: Part, bytes: &[u8], row: Row) -> Answer {
    check_version();
    let function = match part {
        Part::RowText => archive::pgrxsc_row_text,
        Part::KeptName => archive::pgrxsc_kept_name,
        Part::SqlName => archive::pgrxsc_sql_name,
    };
    let mut answer = UNANSWERED;
    // SAFETY: pointer and length are those of a slice; the answer has four numbers and overlaps
    // nothing. Any row may be given, since the function tests it.
    unsafe {
        function(
            bytes.as_ptr(),
            bytes.len(),
            row.sort.number(),
            row.offset,
            row.value,
            answer.as_mut_ptr(),
        );
    }
    answer
}

/// a is 1 if the bytes are UTF-8, else 0; b is where the SQL name starts.
pub(crate) fn name_start(bytes: &[u8]) -> Answer {
    check_version();
    let mut answer = UNANSWERED;
    // SAFETY: pointer and length are those of a slice; the answer has four numbers and overlaps
    // nothing.
    unsafe {
        archive::pgrxsc_name_start(bytes.as_ptr(), bytes.len(), answer.as_mut_ptr());
    }
    answer
}

/// a is the text's start and b its length: in the buffer if the first result is true, else in the
/// bytes.
pub(crate) fn sql_text(bytes: &[u8], offset: u32, buffer: &mut [u8]) -> (bool, Answer) {
    check_version();
    let mut answer = UNANSWERED;
    // SAFETY: the pointers and lengths are those of slices, the answer has four numbers, and
    // `buffer` and `answer` overlap nothing, being borrowed mutably. Any offset may be given.
    let place = unsafe {
        archive::pgrxsc_sql_text(
            bytes.as_ptr(),
            bytes.len(),
            offset,
            buffer.as_mut_ptr(),
            buffer.len(),
            answer.as_mut_ptr(),
        )
    };
    (place == 1, answer)
}

/// What is written.
#[derive(Clone, Copy)]
pub(crate) enum Written {
    Metadata,
    Mapping,
    Payload,
    Section,
}

/// a is the written length.
pub(crate) fn write(written: Written, rows: &[u32], text: &[u8], dest: &mut [u8]) -> Answer {
    check_version();
    let function = match written {
        Written::Metadata => archive::pgrxsc_write_metadata,
        Written::Mapping => archive::pgrxsc_write_mapping,
        Written::Payload => archive::pgrxsc_write_payload,
        Written::Section => archive::pgrxsc_write_section,
    };
    let mut answer = UNANSWERED;
    // SAFETY: the pointers and lengths are those of slices, the answer has four numbers, and
    // `dest` and `answer` overlap nothing, being borrowed mutably.
    unsafe {
        function(
            rows.as_ptr(),
            rows.len(),
            text.as_ptr(),
            text.len(),
            dest.as_mut_ptr(),
            dest.len(),
            answer.as_mut_ptr(),
        );
    }
    answer
}

/// a is the length that would be written.
pub(crate) fn written_len(written: Written, rows: &[u32], text: &[u8]) -> Answer {
    check_version();
    let function = match written {
        Written::Metadata => archive::pgrxsc_metadata_len,
        Written::Mapping => archive::pgrxsc_mapping_len,
        Written::Payload => archive::pgrxsc_payload_len,
        Written::Section => archive::pgrxsc_section_len,
    };
    let mut answer = UNANSWERED;
    // SAFETY: the pointers and lengths are those of slices; the answer has four numbers and
    // overlaps nothing.
    unsafe {
        function(
            rows.as_ptr(),
            rows.len(),
            text.as_ptr(),
            text.len(),
            answer.as_mut_ptr(),
        );
    }
    answer
}

/// The number of pairs is the first result; a and b are 0. The work changes neither.
pub(crate) fn path_repeats(bytes: &[u8], work: &mut [u32]) -> (u64, Answer) {
    check_version();
    let mut answer = UNANSWERED;
    // SAFETY: the pointers and lengths are those of slices, the answer has four numbers, and
    // `work` and `answer` overlap nothing, being borrowed mutably.
    let pairs = unsafe {
        archive::pgrxsc_path_repeats(
            bytes.as_ptr(),
            bytes.len(),
            work.as_mut_ptr(),
            work.len(),
            answer.as_mut_ptr(),
        )
    };
    (pairs, answer)
}

pub(crate) fn is_text(bytes: &[u8]) -> bool {
    check_version();
    // SAFETY: pointer and length are those of a slice.
    unsafe { archive::pgrxsc_is_text(bytes.as_ptr(), bytes.len()) }
}

/// a is 1 if the bytes are UTF-8, else 0; b is how many of them the server keeps as a name.
pub(crate) fn check_text(bytes: &[u8]) -> Answer {
    check_version();
    let mut answer = UNANSWERED;
    // SAFETY: pointer and length are those of a slice; the answer has four numbers and overlaps
    // nothing.
    unsafe {
        archive::pgrxsc_check_text(bytes.as_ptr(), bytes.len(), answer.as_mut_ptr());
    }
    answer
}

#[cfg(test)]
mod tests {
    use super::{compare_version, VERSION};

    #[test]
    fn the_same_version() {
        compare_version(VERSION);
    }

    #[test]
    #[should_panic(expected = "libpgrxsc.a is of version 0, but the crate pgrxsc is of version ")]
    fn another_version() {
        compare_version(0);
    }
}
