//! The layouts of docs/FORMAT.md as values, and a reading by them: an answer of its own, with number, place and rows. It also
//! tells the largest count for which the Rust reserves memory.
use crate::what::What;
use pgrxsc::{Refusal, Row, Sort, LIMIT};
use Layout::*;

pub type Parts = &'static [Layout];

/// For the tags from the first to the second, what follows.
pub type Cases = &'static [(u8, u8, Parts)];

pub enum Layout {
    Flag,
    Number,
    Text,
    /// A flag and a number, twice; a number stands there also where its flag is 0.
    Numeric,
    /// The parts, one after the other.
    All(Parts),
    /// The kind of an entity, then the parts of its case.
    Kind(Cases),
    /// Another tag, then the parts of its case.
    Tag(Cases),
    /// A tag and a text; only then the tag is judged, and the parts of its case follow.
    Named(Cases),
    /// A flag, then the parts if it is 1.
    May(Parts),
    /// A count n, then n times the parts.
    List(Parts),
    /// An argument-side result, which must be a mapping As or Numeric.
    Declared,
}

const O: Layout = May(&[Text]);
const TO_SQL: Layout = All(&[Flag, O]);
const POSITIONING_REF: Layout = Tag(&[(1, 2, &[Text])]);

pub const AS: u8 = 1;
pub const ARRAY: u8 = 2;
pub const NUMERIC: u8 = 3;
pub const COMPOSITE: u8 = 4;
pub const SKIP: u8 = 5;

const ARRAY_MAPPING: Layout = Tag(&[(AS, AS, &[Text]), (NUMERIC, NUMERIC, &[Numeric]), (COMPOSITE, COMPOSITE, &[])]);
pub const MAPPING: Layout =
    Tag(&[(AS, AS, &[Text]), (ARRAY, ARRAY, &[ARRAY_MAPPING]), (NUMERIC, NUMERIC, &[Numeric]), (COMPOSITE, SKIP, &[])]);

const ARGUMENT_ERROR: Layout = Tag(&[(1, 6, &[]), (7, 7, &[Text])]);
pub const ARGUMENT_SQL: Layout = Tag(&[(1, 1, &[MAPPING]), (2, 2, &[ARGUMENT_ERROR])]);
const RETURNS: Layout = Tag(&[(1, 2, &[MAPPING]), (3, 3, &[List(&[MAPPING])])]);
const RETURN_SQL: Layout = Tag(&[(1, 1, &[RETURNS]), (2, 2, &[Tag(&[(1, 10, &[])])])]);
const RESOLUTION: Layout = May(&[Text, Tag(&[(1, 2, &[])])]); // type_ident, type_origin
pub const METADATA: Layout = All(&[RESOLUTION, ARGUMENT_SQL, RETURN_SQL]);

// ty_source, full_path, composite_type, variadic, default, optional, metadata
const USED_TYPE: Layout = All(&[Text, Text, O, Flag, O, Flag, METADATA]);
const AGGREGATE_TYPE: Layout = All(&[O, USED_TYPE]); // name, used_ty
const RETURN: Layout = Tag(&[
    (1, 1, &[]),
    (2, 3, &[USED_TYPE]),
    (4, 4, &[List(&[O, USED_TYPE])]), // name, ty
    (5, 5, &[]),
]);
const ATTRIBUTE: Layout = Tag(&[
    (1, 12, &[]),
    (13, 14, &[Text]),
    (15, 15, &[POSITIONING_REF]),
    (16, 17, &[Text]),
    (18, 18, &[List(&[POSITIONING_REF])]),
]);
const OPERATOR: Layout = All(&[O, O, O, O, O, Flag, Flag]);
const MODIFY: Layout = May(&[Tag(&[(1, 3, &[])])]);
const DECLARATION: Layout = Named(&[(1, 2, &[Text, Declared]), (3, 3, &[])]);

const SCHEMA_PARTS: Parts = &[Text, Text, Text, Number];
const CUSTOM_SQL_PARTS: Parts =
    &[Text, Text, Text, Text, Number, Text, Flag, Flag, List(&[POSITIONING_REF]), List(&[DECLARATION])];
const FUNCTION_PARTS: Parts = &[
    Text,
    Text,
    Text,
    Text,
    List(&[Text, USED_TYPE]), // pattern, used_ty
    RETURN,
    O,
    Text,
    Number,
    List(&[ATTRIBUTE]),
    May(&[List(&[Text])]),
    May(&[OPERATOR]),
    May(&[Tag(&[(1, 3, &[])])]), // cast
    TO_SQL,
];
const TYPE_PARTS: Parts = &[Text, Text, Number, Text, Text, Text, Text, Text, O, O, TO_SQL, May(&[Number])];
const ENUM_PARTS: Parts = &[Text, Text, Number, Text, Text, Text, List(&[Text]), TO_SQL];
const ORD_OR_HASH_PARTS: Parts = &[Text, Text, Number, Text, Text, Text, TO_SQL];
const AGGREGATE_PARTS: Parts = &[
    Text, // full_path
    Text,
    Text,
    Number,
    Text,
    Flag,
    List(&[AGGREGATE_TYPE]),
    May(&[List(&[AGGREGATE_TYPE])]),
    AGGREGATE_TYPE,
    Text, // sfunc
    O,
    MODIFY,
    O, // combinefunc
    O,
    O,
    O,
    O,
    O,
    May(&[USED_TYPE]), // mstype
    O,
    MODIFY,
    O, // minitcond
    O,
    May(&[Tag(&[(1, 3, &[])])]), // parallel
    Flag,
    TO_SQL,
];
const TRIGGER_PARTS: Parts = &[Text, Text, Number, Text, Text, TO_SQL];

pub const CUSTOM_SQL: u8 = 2;
pub const ENTITY: Layout = Kind(&[
    (1, 1, SCHEMA_PARTS),
    (CUSTOM_SQL, CUSTOM_SQL, CUSTOM_SQL_PARTS),
    (3, 3, FUNCTION_PARTS),
    (4, 4, TYPE_PARTS),
    (5, 5, ENUM_PARTS),
    (6, 7, ORD_OR_HASH_PARTS),
    (8, 8, AGGREGATE_PARTS),
    (9, 9, TRIGGER_PARTS),
]);

pub const SENTINEL: &[u8] = b"\x00\x04\x00\x00\x00pgrx";

/// A reading as far as it went.
#[derive(Default)]
pub struct Reading {
    pub rows: Vec<Row>,
    pub entities: usize,
    pub sentinels: usize,
    pub padding: usize,
    /// The largest count that was read.
    pub most: u32,
    /// How many Numeric mappings were read.
    pub numerics: usize,
    /// The entries' offsets.
    pub entries: Vec<usize>,
    at: usize,
    end: usize,
}

impl Reading {
    /// Reads the bytes, and forgets what was read before.
    pub fn read(&mut self, what: What, bytes: &[u8]) -> Result<(), Refusal> {
        self.rows.clear();
        self.entries.clear();
        *self = Reading {
            rows: std::mem::take(&mut self.rows),
            entries: std::mem::take(&mut self.entries),
            ..Reading::default()
        };
        if bytes.len() > LIMIT {
            return Err(Refusal::new(1, 0));
        }
        match what {
            What::Section => self.section(bytes),
            What::Payload => self.entity(bytes, 0, bytes.len()),
            What::Metadata => self.alone(&METADATA, bytes, 0, bytes.len()),
            What::Mapping => self.alone(&MAPPING, bytes, 0, bytes.len()),
        }
    }

    /// Reads the mapping at an offset. Bytes may follow it.
    pub fn mapping_at(&mut self, bytes: &[u8], offset: u32) -> Result<(), Refusal> {
        if bytes.len() > LIMIT {
            return Err(Refusal::new(1, 0));
        }
        if offset as usize > bytes.len() {
            return Err(Refusal::new(5, offset as usize));
        }
        (self.at, self.end) = (offset as usize, bytes.len());
        self.part(&MAPPING, bytes)
    }

    fn section(&mut self, bytes: &[u8]) -> Result<(), Refusal> {
        let mut boundary = 0;
        while bytes[boundary..].iter().any(|&byte| byte != 0) {
            let left = bytes.len() - boundary;
            if left < 4 {
                return Err(Refusal::new(2, boundary));
            }
            let len = four(bytes, boundary) as usize;
            if len == 0 {
                return Err(Refusal::new(3, boundary));
            }
            if len > left - 4 {
                return Err(Refusal::new(4, boundary));
            }
            self.entries.push(boundary);
            boundary += 4 + len;
        }
        self.padding = bytes.len() - boundary;
        for i in 0..self.entries.len() {
            let start = self.entries[i] + 4;
            let end = start + four(bytes, start - 4) as usize;
            if &bytes[start..end] == SENTINEL {
                self.sentinels += 1;
            } else {
                self.entity(bytes, start, end)?;
            }
        }
        Ok(())
    }

    fn entity(&mut self, bytes: &[u8], start: usize, end: usize) -> Result<(), Refusal> {
        self.entities += 1;
        self.alone(&ENTITY, bytes, start, end)
    }

    fn alone(&mut self, layout: &Layout, bytes: &[u8], start: usize, end: usize) -> Result<(), Refusal> {
        (self.at, self.end) = (start, end);
        self.part(layout, bytes)?;
        if self.at < self.end {
            return Err(Refusal::new(12, self.at));
        }
        Ok(())
    }

    fn parts(&mut self, parts: Parts, bytes: &[u8]) -> Result<(), Refusal> {
        parts.iter().try_for_each(|part| self.part(part, bytes))
    }

    fn part(&mut self, layout: &Layout, bytes: &[u8]) -> Result<(), Refusal> {
        let start = self.at;
        match layout {
            Flag => self.flag(bytes).map(drop),
            Number => self.number(Sort::Number, bytes).map(drop),
            Text => self.text(bytes),
            Numeric => {
                self.numerics += 1;
                self.parts(&[Flag, Number, Flag, Number], bytes)
            }
            All(parts) => self.parts(parts, bytes),
            Kind(cases) => {
                let kind = self.byte(Sort::Kind, bytes)?;
                self.parts(case(cases, kind).ok_or(Refusal::new(8, start))?, bytes)
            }
            Tag(cases) => {
                let tag = self.byte(Sort::Tag, bytes)?;
                self.parts(case(cases, tag).ok_or(Refusal::new(9, start))?, bytes)
            }
            Named(cases) => {
                let tag = self.byte(Sort::Tag, bytes)?;
                self.text(bytes)?;
                self.parts(case(cases, tag).ok_or(Refusal::new(9, start))?, bytes)
            }
            May(parts) => match self.flag(bytes)? {
                true => self.parts(parts, bytes),
                false => Ok(()),
            },
            List(parts) => {
                let count = self.number(Sort::Count, bytes)?;
                self.most = self.most.max(count);
                (0..count).try_for_each(|_| self.parts(parts, bytes))
            }
            Declared => {
                self.part(&ARGUMENT_SQL, bytes)?;
                match bytes[start..] {
                    [1, AS | NUMERIC, ..] => Ok(()),
                    [1, ..] => Err(Refusal::new(10, start)),
                    _ => Err(Refusal::new(11, start)),
                }
            }
        }
    }

    /// Takes `len` bytes, and says where they begin.
    fn take(&mut self, len: usize) -> Result<usize, Refusal> {
        let start = self.at;
        if len > self.end - start {
            return Err(Refusal::new(5, start));
        }
        self.at += len;
        Ok(start)
    }

    fn byte(&mut self, sort: Sort, bytes: &[u8]) -> Result<u8, Refusal> {
        let at = self.take(1)?;
        self.rows.push(Row::new(sort, at as u32, bytes[at].into()));
        Ok(bytes[at])
    }

    fn flag(&mut self, bytes: &[u8]) -> Result<bool, Refusal> {
        let start = self.at;
        match self.byte(Sort::Flag, bytes)? {
            0 => Ok(false),
            1 => Ok(true),
            _ => Err(Refusal::new(6, start)),
        }
    }

    fn number(&mut self, sort: Sort, bytes: &[u8]) -> Result<u32, Refusal> {
        let at = self.take(4)?;
        self.rows.push(Row::new(sort, at as u32, four(bytes, at)));
        Ok(four(bytes, at))
    }

    fn text(&mut self, bytes: &[u8]) -> Result<(), Refusal> {
        let at = self.take(4)?;
        let len = four(bytes, at);
        let start = self.take(len as usize)?;
        if std::str::from_utf8(&bytes[start..self.at]).is_err() {
            return Err(Refusal::new(7, start));
        }
        self.rows.push(Row::new(Sort::Text, start as u32, len));
        Ok(())
    }
}

/// The parts that follow a tag.
pub fn case(cases: Cases, tag: u8) -> Option<Parts> {
    cases.iter().find(|(first, last, _)| (*first..=*last).contains(&tag)).map(|(_, _, parts)| *parts)
}

/// The number in the four bytes from an offset on.
pub fn four(bytes: &[u8], at: usize) -> u32 {
    u32::from_le_bytes(bytes[at..at + 4].try_into().unwrap())
}
