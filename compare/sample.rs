//! Some of the Rust's answers, one a line, from its objects and texts alone:
//!
//!     O BYTES accept ENTITIES DUMP, O BYTES refuse
//!         A section. The dump has the leaves of its objects in order: kinds, tags, flags, numbers and counts in four bytes
//!         each, texts as their bytes.
//!     N BYTES 6 OFFSET VALUE part START LENGTH
//!         The SQL name of a declared function, from the row of its name.
//!     Q BYTES OFFSET 31 section START LENGTH BUFFER, Q BYTES OFFSET 31 buffer 0 LENGTH BUFFER
//!         The SQL text of the mapping at the offset. The buffer held EE before.
//!     W ROWS TEXT SIZE wrote LENGTH DEST, w ROWS TEXT SIZE wrote LENGTH DEST
//!         A metadata record or a mapping, with the numbers of its rows joined by commas. The destination held EE before.
//!
//! Bytes are in hexadecimal, - for none.
use crate::comparison::UNTOUCHED;
use crate::generate::Generator;
use crate::layouts::{Reading, AS};
use crate::objects::{oracle, Objects, MOST_RESERVED};
use crate::report::hexadecimal;
use crate::what::{numbers, What};
use crate::{flatten, written};
use pgrx_sql_entity_graph::metadata::SqlMapping;
use pgrx_sql_entity_graph::section::{EntryReader, ENTITY_CUSTOM_SQL, SQL_DECLARED_FUNCTION};
use pgrx_sql_entity_graph::{ExtensionSql, SqlGraphEntity};
use pgrxsc::{Row, Sort, SQL_TEXT_SIZE};

/// Longer sections are left out.
const MOST_BYTES: usize = 400;

/// Prints `count` lines: of each eight, four of sections and one of each other letter.
pub fn print(count: u64, seed: u64) {
    let mut generator = Generator::new(seed);
    let mut lines = 0;
    while lines < count {
        let line = match lines % 8 {
            0 | 2 => section(&mut generator, Generator::make),
            1 | 3 => section(&mut generator, Generator::damaged),
            4 => sql_name(&mut generator),
            5 => sql_text(&mut generator),
            6 => written("W", What::Metadata, &mut generator),
            _ => written("w", What::Mapping, &mut generator),
        };
        if let Some(line) = line {
            println!("{line}");
            lines += 1;
        }
    }
}

/// A section without Numeric mappings, which the Rust's objects do not tell from an As.
fn section(generator: &mut Generator, make: fn(&mut Generator, What) -> Vec<u8>) -> Option<String> {
    generator.numeric = false;
    let bytes = make(generator, What::Section);
    generator.numeric = true;
    let mut reading = Reading::default();
    let _ = reading.read(What::Section, &bytes);
    if bytes.len() > MOST_BYTES || reading.most > MOST_RESERVED || reading.numerics > 0 {
        return None;
    }
    let field = hexadecimal(&bytes);
    Some(match oracle(What::Section, &bytes) {
        Some(objects) => {
            let Objects::Entities(entities) = &objects else { unreachable!() };
            format!("O {field} accept {} {}", entities.len(), hexadecimal(&flatten::leaves(&objects).dump))
        }
        None => format!("O {field} refuse"),
    })
}

/// The first function that a custom SQL declares.
fn sql_name(generator: &mut Generator) -> Option<String> {
    let bytes = generator.entity(ENTITY_CUSTOM_SQL);
    let Some(Objects::Entities(entities)) = oracle(What::Payload, &bytes) else { return None };
    let SqlGraphEntity::CustomSql(entity) = &entities[0] else { return None };
    let parts = entity.creates.iter().map(ExtensionSql::declared_parts);
    let (_, name, _, sql) = parts.into_iter().find(|(kind, ..)| *kind == SQL_DECLARED_FUNCTION)?;
    // The name's text is the one after such a tag, with the name's bytes
    let mut reading = Reading::default();
    reading.read(What::Payload, &bytes).ok()?;
    let declared = |pair: &&[Row]| {
        let (tag, text) = (pair[0], pair[1]);
        let body = |row: Row| &bytes[row.offset as usize..(row.offset + row.value) as usize];
        (tag.sort, tag.value, text.sort) == (Sort::Tag, SQL_DECLARED_FUNCTION.into(), Sort::Text)
            && body(text) == name.as_bytes()
    };
    let row = reading.rows.windows(2).find(declared)?[1];
    if bytes.len() > MOST_BYTES {
        return None;
    }
    let start = row.offset as usize + name.len() - sql.len();
    let (field, sort) = (hexadecimal(&bytes), row.sort.number());
    Some(format!("N {field} {sort} {} {} part {start} {}", row.offset, row.value, sql.len()))
}

/// A mapping between other bytes.
fn sql_text(generator: &mut Generator) -> Option<String> {
    let offset = generator.random.below(4);
    let mut bytes = vec![0xff; offset];
    bytes.extend(generator.make(What::Mapping));
    bytes.extend(vec![0xff; generator.random.below(4)]);
    let Ok(SqlMapping::As(text)) = EntryReader::new(&bytes[offset..]).read_sql_mapping_owned() else { return None };
    let mut buffer = [UNTOUCHED; SQL_TEXT_SIZE];
    let (place, start) = if bytes[offset] == AS { ("section", offset + 5) } else { ("buffer", 0) };
    if place == "buffer" {
        buffer[..text.len()].copy_from_slice(text.as_bytes());
    }
    let (field, len, buffer) = (hexadecimal(&bytes), text.len(), hexadecimal(&buffer));
    Some(format!("Q {field} {offset} {SQL_TEXT_SIZE} {place} {start} {len} {buffer}"))
}

fn written(letter: &str, what: What, generator: &mut Generator) -> Option<String> {
    generator.unused = false;
    let bytes = generator.make(what);
    generator.unused = true;
    if bytes.len() > written::MOST {
        return None;
    }
    let mut reading = Reading::default();
    reading.read(what, &bytes).ok()?;
    let (rows, text) = written::lend(&reading.rows, &bytes, &mut generator.random);
    let mut dest = written::Value::new(what, &rows, &text).write();
    let len = dest.len();
    dest.extend(vec![UNTOUCHED; generator.random.below(4)]);
    let rows: Vec<_> = numbers(&rows).iter().map(u32::to_string).collect();
    let (rows, text, size, dest) = (rows.join(","), hexadecimal(&text), dest.len(), hexadecimal(&dest));
    Some(format!("{letter} {rows} {text} {size} wrote {len} {dest}"))
}
