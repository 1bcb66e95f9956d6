//! The sections that are timed: functions as the macros write them, and short entries.

pub const MIB: usize = 1 << 20;

/// The bytes of one entry, part after part.
#[derive(Default)]
pub struct Entry(pub Vec<u8>);

impl Entry {
    pub fn tag(mut self, tag: u8) -> Self {
        self.0.push(tag);
        self
    }

    pub fn tags(mut self, tags: &[u8]) -> Self {
        self.0.extend(tags);
        self
    }

    pub fn number(mut self, number: u32) -> Self {
        self.0.extend(number.to_le_bytes());
        self
    }

    pub fn text(mut self, text: &[u8]) -> Self {
        self = self.number(text.len() as u32);
        self.0.extend(text);
        self
    }

    /// A used type with an SQL type of its own, as argument and as result.
    pub fn used_type(self, source: &str, sql: &str) -> Self {
        let ident = format!("pgrx_sql_entity_graph::metadata::sql_translatable::{source}");
        self.text(source.as_bytes())
            .text(source.as_bytes())
            .tags(&[0, 0, 0, 0]) // composite_type, variadic, default, optional
            .tag(1) // resolution
            .text(ident.as_bytes())
            .tag(2) // External
            .tags(&[1, 1]) // Ok, As
            .text(sql.as_bytes())
            .tags(&[1, 1, 1]) // Ok, One, As
            .text(sql.as_bytes())
    }

    pub fn add_to(self, section: &mut Vec<u8>) {
        section.extend((self.0.len() as u32).to_le_bytes());
        section.extend(self.0);
    }
}

/// A function of two arguments, as the macros write it: the paths, the types' names and their idents as they come out of the
/// published code.
pub fn function(i: usize) -> Entry {
    let name = format!("range_of_motion_{i}");
    let path = format!("rehab::exercise::{name}");
    Entry::default()
        .tag(3)
        .text(name.as_bytes())
        .text(name.as_bytes())
        .text(b"rehab::exercise")
        .text(path.as_bytes())
        .number(2)
        .text(b"angle")
        .used_type("f64", "double precision")
        .text(b"joint")
        .used_type("str", "TEXT")
        .tag(2) // Type
        .used_type("i32", "INT")
        .tag(0) // schema
        .text(b"src/exercise.rs")
        .number(i as u32)
        .number(3)
        .tags(&[2, 3, 10]) // Immutable, Strict, ParallelSafe
        .tags(&[0, 0, 0]) // search_path, operator, cast
        .tags(&[1, 0]) // to_sql_config
}

/// A schema with a module_path alone.
pub fn schema(text: &[u8]) -> Entry {
    Entry::default().tag(1).text(text).text(b"").text(b"").number(0)
}

/// As many entries as fit.
pub fn entries(size: usize, entry: impl Fn(usize) -> Entry) -> Vec<u8> {
    let mut section = Vec::new();
    for i in 0.. {
        let next = entry(i);
        if size < section.len() + 4 + next.0.len() {
            break;
        }
        next.add_to(&mut section);
    }
    section
}
