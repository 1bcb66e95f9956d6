//! Lists the schema section of an extension:
//!
//! ```sh
//! cargo run --example list extension.so
//! ```
//!
//! A file that is no ELF file is taken for the section itself.
//!
//! It prints `accept` with the numbers of entities and rows, and a line for each row (sort, offset,
//! value); or `refuse` with the number and the place, and the sentence for it as an error message.
//! Offsets and places count from the section's start. The format is that of the repository's program
//! `list`, which is bounded to smaller sections.

use pgrxsc::{find_section, Refusal, Table, ELF_SECTION_NAME};
use std::error::Error;
use std::io::{self, BufWriter, Write};

fn main() -> Result<(), Box<dyn Error>> {
    let file = std::env::args_os().nth(1).ok_or("no file is given")?;
    let file = std::fs::read(file)?;
    let mut out = BufWriter::new(io::stdout().lock());
    list(&file, &mut out)?;
    out.flush()?;
    Ok(())
}

/// Prints the listing of an ELF file's schema section, or of a section.
pub fn list(file: &[u8], out: &mut impl Write) -> io::Result<()> {
    let mut table = Table::new();
    match section(file).and_then(|section| table.read_section(section)) {
        Ok(reading) => {
            let (entities, rows) = (reading.entities(), reading.rows());
            writeln!(out, "accept {} {}", entities.len(), rows.len())?;
            for row in rows {
                writeln!(out, "{} {} {}", row.sort.number(), row.offset, row.value)?;
            }
        }
        Err(refusal) => {
            writeln!(out, "refuse {} {}", refusal.number(), refusal.place())?;
            eprintln!("{refusal}");
        }
    }
    Ok(())
}

fn section(file: &[u8]) -> Result<&[u8], Refusal> {
    // No accepted section begins so: as an entry's length, 0x464C457F is more than the limit.
    if file.starts_with(b"\x7fELF") {
        find_section(file, ELF_SECTION_NAME)
    } else {
        Ok(file)
    }
}
