//! The archive's functions for a directory and for what holds a byte, with all four numbers of their answers, which the crate
//! does not pass on.

/// The numbers of an answer: a refusal's number and place, then a and b.
pub type Answer = [u64; 4];

/// What is lent for an answer: no number of it could be taken for one of the archive's.
const UNANSWERED: Answer = [u64::MAX; 4];

/// What a directory has for an entity.
#[derive(Clone, Copy, Debug, Default, PartialEq)]
#[repr(C)]
pub struct Record {
    pub kind: u32,
    /// Where the entity's entry starts, and how many bytes it has; both with the four bytes of its length.
    pub start: u32,
    pub length: u32,
    /// The index of the entity's first row, and how many rows it has.
    pub first_row: u32,
    pub row_count: u32,
}

extern "C" {
    fn pgrxsc_read_directory(
        bytes: *const u8,
        len: usize,
        table: *mut u32,
        table_len: usize,
        records: *mut Record,
        records_len: usize,
        answer: *mut u64,
    );
    fn pgrxsc_entity_at(bytes: *const u8, len: usize, position: u64, answer: *mut u64);
}

/// a is the number of entities, b the number of rows.
pub fn read_directory(bytes: &[u8], table: &mut [u32], records: &mut [Record]) -> Answer {
    let mut answer = UNANSWERED;
    // SAFETY: the pointers and lengths are those of slices, the answer has four numbers, and what may change overlaps nothing,
    // being borrowed mutably.
    unsafe {
        pgrxsc_read_directory(
            bytes.as_ptr(),
            bytes.len(),
            table.as_mut_ptr(),
            table.len(),
            records.as_mut_ptr(),
            records.len(),
            answer.as_mut_ptr(),
        );
    }
    answer
}

/// a is 1 if an entity's entry holds the position, else 0; b is the entity's index.
pub fn entity_at(bytes: &[u8], position: u64) -> Answer {
    let mut answer = UNANSWERED;
    // SAFETY: pointer and length are those of a slice; the answer has four numbers and overlaps nothing.
    unsafe { pgrxsc_entity_at(bytes.as_ptr(), bytes.len(), position, answer.as_mut_ptr()) };
    answer
}
