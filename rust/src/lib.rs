//! Reads and writes pgrx schema sections.
//!
//! An extension built with pgrx declares its functions, types and aggregates in a section
//! `.pgrxsc` of its shared object. The section is a run of entries, each a length and a payload of
//! one entity, and then zero bytes, if any. The reader is proved: it accepts exactly the sections
//! that the format's written layouts allow, and gives all others one numbered [`Refusal`] with its
//! place. The writer is proved too: what it writes is read as the rows that it was given. This crate
//! lends their archive the slices, and gives its answers as Rust types. `docs/FORMAT.md` in the
//! repository describes the format, its rows and the refusals.
//!
//! [`find_section`] finds the section in the extension's file, as a part of the file, and
//! [`read_section`] reads it, here with the table that a [`Table`] holds:
//!
//! ```no_run
//! use pgrxsc::{find_section, Table, ELF_SECTION_NAME};
//!
//! let file = std::fs::read("extension.so")?;
//! let section = find_section(&file, ELF_SECTION_NAME)?;
//! let mut table = Table::new();
//! let reading = table.read_section(section)?;
//! println!("{} entities", reading.entities().len());
//! # Ok::<(), Box<dyn std::error::Error>>(())
//! ```
//!
//! The reading has the entities, with their kinds, texts and other values:
//!
//! ```
//! use pgrxsc::{EntityKind, Refusal, Table};
//!
//! /// The names of the schemas that a section declares.
//! fn schemas(section: &[u8]) -> Result<Vec<&str>, Refusal> {
//!     let mut table = Table::new();
//!     let reading = table.read_section(section)?;
//!     let schemas = reading.entities().filter(|entity| entity.kind() == EntityKind::Schema);
//!     Ok(schemas.filter_map(|schema| schema.texts().nth(1)).collect())
//! }
//!
//! let section = b"\x1c\0\0\0\x01\x04\0\0\0path\x04\0\0\0name\x03\0\0\0a.b\x07\0\0\0";
//! assert_eq!(schemas(section), Ok(vec!["name"]));
//! let refusal = schemas(&section[..20]).unwrap_err();
//! assert_eq!(refusal.to_string(), "the length at byte 0 is more than the bytes after it (refusal 4)");
//! ```
//!
//! # Rows
//!
//! A reading gives a [`Row`] for each value of the section, in the order in which they stand there.
//! The rows are stored in a table of 32-bit numbers, [`ROW_WIDTH`] to a row, which the caller lends
//! ([`read_section`]) or a [`Table`] holds. Texts are not copied: they are parts of the bytes read.
//! Nothing is reserved for a count or a length that only stands in the section; only a [`Table`],
//! [`path_repeats`] and a [`Builder`] reserve memory at all, by the number of bytes that they are
//! given.
//!
//! # Names
//!
//! The server, PostgreSQL, keeps 63 bytes of a name ([`MOST_KEPT`]) and cuts a longer one at a
//! character boundary. The rows and texts of a reading have names whole. [`Entity::kept_name`] gives
//! as much of an entity's name as the server keeps, and [`kept_name`] as much of any row's text;
//! [`check_text`] tells how many bytes are kept of any other name. Names that differ may be the same
//! to the server:
//!
//! ```
//! use pgrxsc::builder::{Builder, Function};
//! use pgrxsc::{Table, MOST_KEPT};
//!
//! let long = "a_long_name_".repeat(6);
//! let mut builder = Builder::new();
//! builder.add(Function { name: &format!("{long}1"), ..Function::default() });
//! builder.add(Function { name: &format!("{long}2"), ..Function::default() });
//! let section = builder.to_section()?;
//!
//! let mut table = Table::new();
//! let functions: Vec<_> = table.read_section(&section)?.entities().collect();
//! assert_ne!(functions[0].name(), functions[1].name());
//! assert_eq!(functions[0].kept_name(), functions[1].kept_name());
//! assert_eq!(functions[0].kept_name(), &long[..MOST_KEPT]);
//! # Ok::<(), pgrxsc::Refusal>(())
//! ```
//!
//! # Directories
//!
//! A [`Directory`] is a reading with a [`Record`] for each entity, which says where the entity's
//! entry lies in the section and which rows it has. So it can tell which entity is at a position. A
//! linker map has positions in the file, but those of a directory count from the section's start:
//! the section's own start in the file is subtracted first.
//!
//! ```
//! use pgrxsc::{section_range, Refusal, Table, ELF_SECTION_NAME};
//!
//! /// What an extension declares at a position of its file, if anything.
//! fn declared_at(file: &[u8], position: u64) -> Result<Option<String>, Refusal> {
//!     let range = section_range(file, ELF_SECTION_NAME)?;
//!     let start = range.start as u64;
//!     let mut table = Table::new();
//!     let directory = table.read_directory(&file[range])?;
//!     let found = position.checked_sub(start).and_then(|position| directory.at(position));
//!     Ok(found.and_then(|(index, _)| directory.entity(index)).map(|entity| {
//!         format!("{:?}: {}", entity.kind(), entity.texts().collect::<Vec<_>>().join(", "))
//!     }))
//! }
//!
//! # // The file header, the section names, the section, which is of one schema, and the section
//! # // headers.
//! # let mut file = vec![0; 160 + 3 * 64];
//! # file[..6].copy_from_slice(b"\x7fELF\x02\x01");
//! # (file[40], file[58], file[60], file[62]) = (160, 64, 3, 2);
//! # file[64..83].copy_from_slice(b"\0.pgrxsc\0.shstrtab\0");
//! # file[96..128].copy_from_slice(b"\x1c\0\0\0\x01\x04\0\0\0path\x04\0\0\0name\x03\0\0\0a.b\x07\0\0\0");
//! # for (header, name, kind, offset, size) in [(224, 1, 1, 96, 32), (288, 9, 3, 64, 19)] {
//! #     (file[header], file[header + 4]) = (name, kind);
//! #     (file[header + 24], file[header + 32]) = (offset, size);
//! # }
//! // `file` is an extension that declares one schema, in a section at bytes 96 to 127.
//! assert_eq!(declared_at(&file, 95)?, None);
//! assert_eq!(declared_at(&file, 96)?.unwrap(), "Schema: path, name, a.b");
//! assert_eq!(declared_at(&file, 128)?, None);
//! # Ok::<(), Refusal>(())
//! ```
//!
//! For a single position, [`entity_at`] gives the index of the entity without a table.
//!
//! # Writing
//!
//! A writer takes rows and texts: those of a reading, or those that a [`Builder`] made. A section of
//! a test extension is some structs:
//!
//! ```
//! use pgrxsc::builder::{Builder, Function, Return, Schema, UsedType};
//!
//! let mut builder = Builder::new();
//! builder.add(Schema { name: "api", module_path: "ext::api", ..Schema::default() });
//! builder.add(Function { name: "one", fn_return: Return::Type(UsedType::new("i32", "INT")), ..Function::default() });
//! let section = builder.to_section()?;
//! # assert_eq!(pgrxsc::Table::new().read_section(&section)?.entities().len(), 2);
//! # Ok::<(), pgrxsc::Refusal>(())
//! ```
//!
//! [`Builder`]: builder::Builder
//!
//! # What is proved, and what is not
//!
//! The proofs are of the archive. This crate is ordinary Rust; all its unsafe code is the calls of
//! the archive's functions. It relies on the header's promise that these change nothing but what
//! they are lent. What they answer is tested before it is used as a text, as an index or as a sort.
//! The crate panics if an answer breaks the header's promises, or if the archive is of another
//! [`VERSION`], and for no other reason.
//!
//! All functions can be called from several threads at a time.
//!
//! # Building
//!
//! The crate links `libpgrxsc.a`, which `rt lib`, run in the repository's folder `crates/pgrxsc`,
//! puts in `crates/pgrxsc/out`. For an archive in another folder, name the folder in the environment
//! variable `PGRXSC_LIB`. `cargo check` and `cargo doc` do without the archive. The target must be
//! x86-64 Linux.

#![deny(unsafe_code)]
#![deny(missing_docs)]

pub mod builder;
mod directory;
mod elf;
#[allow(unsafe_code)]
mod ffi;
mod parts;
mod reading;
mod refusal;
mod row;
mod table;
mod writing;

pub use directory::{entity_at, read_directory, records_len, Directory, Record};
pub use elf::{find_section, section_range};
pub use parts::{
    check_text, is_text, kept_name, name_start, path_repeats, row_text, sql_name, sql_text,
};
pub use reading::{
    read_mapping, read_metadata, read_payload, read_section, Entities, Entity, Reading, Rows, Texts,
};
pub use refusal::{Refusal, RefusalKind};
pub use row::{EntityKind, Row, Sort};
pub use table::{table_len, Table};
pub use writing::{
    mapping_len, metadata_len, payload_len, section_len, write_mapping, write_metadata,
    write_payload, write_section,
};

/// The version of the archive that the crate works with, `PGRXSC_VERSION` in `include/pgrxsc.h`. It
/// grows by one whenever a function, a row, a record or a refusal changes its shape or its meaning or
/// is gone.
///
/// The first call of the archive compares it with the archive's own version, and panics if they
/// differ. Then crate and archive are of different states of the repository: run `rt lib` in
/// `crates/pgrxsc` again.
pub const VERSION: u32 = 2;

/// The most bytes that are read or written: 16 MiB.
pub const LIMIT: usize = 16_777_216;

/// The name of the schema section in an extension's ELF file. [`find_section`] finds it.
pub const ELF_SECTION_NAME: &str = ".pgrxsc";

/// How many numbers of a table make a row.
pub const ROW_WIDTH: usize = 3;

/// How many bytes the buffer for an SQL text has: those of the longest Numeric text.
pub const SQL_TEXT_SIZE: usize = 31;

/// The most bytes that the server, PostgreSQL, keeps of a name. It cuts a longer name at a character
/// boundary: [`kept_name`] does the same.
pub const MOST_KEPT: usize = 63;
