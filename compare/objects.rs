//! What the Rust reads: its objects.
use crate::what::What;
use pgrx_sql_entity_graph::metadata::{FunctionMetadataTypeEntity, SqlMapping};
use pgrx_sql_entity_graph::section::{decode_entities, decode_entity, EntryReader};
use pgrx_sql_entity_graph::SqlGraphEntity;

/// The largest count in the domain, since the Rust reserves memory for a count before it reads an item.
pub const MOST_RESERVED: u32 = 100_000;

/// What the Rust reads bytes as.
#[derive(Debug, PartialEq)]
pub enum Objects<'a> {
    Entities(Vec<SqlGraphEntity<'a>>),
    Metadata(FunctionMetadataTypeEntity<'a>),
    Mapping(SqlMapping),
}

/// What the Rust reads, if it accepts.
pub fn oracle(what: What, bytes: &[u8]) -> Option<Objects<'_>> {
    let mut reader = EntryReader::new(bytes);
    let objects = match what {
        What::Section => return decode_entities(bytes).ok().map(Objects::Entities),
        What::Payload => return decode_entity(bytes).ok().map(|entity| Objects::Entities(vec![entity])),
        What::Metadata => Objects::Metadata(reader.read_function_metadata_type().ok()?),
        What::Mapping => Objects::Mapping(reader.read_sql_mapping_owned().ok()?),
    };
    reader.finish().ok().map(|()| objects)
}
