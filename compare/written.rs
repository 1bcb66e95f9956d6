//! What the Rust's `EntryWriter` writes of the value that rows spell, at run time and for each length up to `MOST`.
use crate::common::Random;
use crate::layouts::{AS, COMPOSITE, NUMERIC, SKIP};
use crate::what::What;
use pgrx_sql_entity_graph::metadata::*;
use pgrx_sql_entity_graph::section as s;
use pgrxsc::{Row, Sort};

/// The longest record that is compared.
pub const MOST: usize = 256;

#[derive(Clone, Copy)]
pub enum Value {
    Metadata(
        Option<(&'static str, TypeOrigin)>,
        Result<SqlMappingRef, ArgumentError>,
        Result<ReturnsRef, ReturnsError>,
    ),
    Mapping(SqlMappingRef),
}

impl Value {
    /// The value that rows spell, whose texts stand in `text`. The texts are leaked: the Rust's value has no other.
    pub fn new(what: What, rows: &[Row], text: &[u8]) -> Self {
        let mut spelled = Spelled { rows: rows.iter(), text };
        match what {
            What::Metadata => Value::Metadata(spelled.resolution(), spelled.argument_sql(), spelled.return_sql()),
            _ => Value::Mapping(spelled.mapping()),
        }
    }

    /// The length that the Rust gives it.
    pub fn len(self) -> usize {
        match self {
            Value::Metadata(resolution, argument_sql, return_sql) => {
                s::function_metadata_type_len(resolution.map(|(type_ident, _)| type_ident), argument_sql, return_sql)
            }
            Value::Mapping(mapping) => s::sql_mapping_len(mapping),
        }
    }

    /// The bytes that the Rust writes.
    pub fn write(self) -> Vec<u8> {
        WRITE[self.len() / 16][self.len() % 16](self)
    }
}

fn write<const N: usize>(value: Value) -> Vec<u8> {
    let writer = s::EntryWriter::<N>::new();
    let writer = match value {
        Value::Metadata(resolution, argument_sql, return_sql) => {
            writer.function_metadata_type(resolution, argument_sql, return_sql)
        }
        Value::Mapping(mapping) => writer.sql_mapping(mapping),
    };
    writer.finish().to_vec()
}

macro_rules! sixteen {
    ($($high:literal)*) => { [$(sixteen!($high: 0 1 2 3 4 5 6 7 8 9 10 11 12 13 14 15)),*] };
    ($high:literal: $($low:literal)*) => { [$(write::<{ 16 * $high + $low }>),*] };
}

/// The writers of the lengths 0 to 271.
static WRITE: [[fn(Value) -> Vec<u8>; 16]; 17] = sixteen! { 0 1 2 3 4 5 6 7 8 9 10 11 12 13 14 15 16 };

/// The rows that are not yet taken.
struct Spelled<'a> {
    rows: std::slice::Iter<'a, Row>,
    text: &'a [u8],
}

impl Spelled<'_> {
    fn row(&mut self) -> Row {
        *self.rows.next().expect("rows that spell a value")
    }

    fn value(&mut self) -> u32 {
        self.row().value
    }

    fn text(&mut self) -> &'static str {
        let row = self.row();
        let text = &self.text[row.offset as usize..(row.offset + row.value) as usize];
        String::from_utf8(text.to_vec()).unwrap().leak()
    }

    fn numeric(&mut self) -> (Option<u32>, Option<u32>) {
        let mut half = || (self.value() == 1, self.value());
        let ((precise, precision), (scaled, scale)) = (half(), half());
        (precise.then_some(precision), scaled.then_some(scale))
    }

    fn mapping(&mut self) -> SqlMappingRef {
        match self.value() as u8 {
            AS => SqlMappingRef::As(self.text()),
            NUMERIC => {
                let (precision, scale) = self.numeric();
                SqlMappingRef::Numeric { precision, scale }
            }
            COMPOSITE => SqlMappingRef::Composite,
            SKIP => SqlMappingRef::Skip,
            _ => SqlMappingRef::Array(self.array_mapping()),
        }
    }

    fn array_mapping(&mut self) -> SqlArrayMappingRef {
        match self.value() as u8 {
            AS => SqlArrayMappingRef::As(self.text()),
            NUMERIC => {
                let (precision, scale) = self.numeric();
                SqlArrayMappingRef::Numeric { precision, scale }
            }
            _ => SqlArrayMappingRef::Composite,
        }
    }

    fn resolution(&mut self) -> Option<(&'static str, TypeOrigin)> {
        (self.value() == 1).then(|| {
            let type_ident = self.text();
            let external = self.value() == s::TYPE_ORIGIN_EXTERNAL.into();
            (type_ident, if external { TypeOrigin::External } else { TypeOrigin::ThisExtension })
        })
    }

    fn argument_sql(&mut self) -> Result<SqlMappingRef, ArgumentError> {
        use ArgumentError::*;
        if self.value() == s::RESULT_OK.into() {
            return Ok(self.mapping());
        }
        let errors = [SetOf, Table, NestedArray, BareU8, SkipInArray, Datum];
        match self.value() {
            7 => Err(NotValidAsArgument(self.text())),
            tag => Err(errors[tag as usize - 1]),
        }
    }

    fn return_sql(&mut self) -> Result<ReturnsRef, ReturnsError> {
        use ReturnsError::*;
        if self.value() == s::RESULT_ERR.into() {
            let sets = [NestedSetOf, NestedTable, NestedArray, SetOfContainingTable, TableContainingSetOf];
            let others = [SetOfInArray, TableInArray, BareU8, SkipInArray, Datum];
            return Err([sets, others].concat()[self.value() as usize - 1]);
        }
        match self.value() as u8 {
            s::RETURNS_ONE => Ok(ReturnsRef::One(self.mapping())),
            s::RETURNS_SET_OF => Ok(ReturnsRef::SetOf(self.mapping())),
            _ => {
                let count = self.value();
                let columns: Vec<_> = (0..count).map(|_| self.mapping()).collect();
                Ok(ReturnsRef::Table(columns.leak()))
            }
        }
    }
}

/// The same rows with their texts elsewhere: in bytes of their own, between bytes that are no text. Other rows get any offset.
pub fn lend(rows: &[Row], bytes: &[u8], random: &mut Random) -> (Vec<Row>, Vec<u8>) {
    let (mut lent, mut text) = (rows.to_vec(), Vec::new());
    for row in &mut lent {
        if row.sort != Sort::Text {
            row.offset = random.next() as u32 >> random.below(32);
            continue;
        }
        let start = row.offset as usize;
        text.extend(std::iter::repeat_n(0xff, random.below(3)));
        row.offset = text.len() as u32;
        text.extend(&bytes[start..start + row.value as usize]);
    }
    (lent, text)
}
