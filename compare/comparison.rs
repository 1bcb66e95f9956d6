//! The comparison of one input: of readings, of the texts that rows give, and of writings.
use crate::common::Random;
use crate::flatten;
use crate::generate::Generator;
use crate::inputs::Compare;
use crate::layouts::{self, Reading};
use crate::objects::{oracle, Objects, MOST_RESERVED};
use crate::rebuild::{self, Calls};
use crate::report::{self, shortened, Classes};
use crate::spelled;
use crate::what::{numbers, part, sql_text, SqlText, What};
use crate::written::{self, Value};
use pgrx_sql_entity_graph::metadata::SqlMapping;
use pgrx_sql_entity_graph::section::EntryReader;
use pgrx_sql_entity_graph::SqlGraphEntity;
use pgrxsc::{Refusal, Row, Sort, LIMIT, ROW_WIDTH, SQL_TEXT_SIZE};
use std::collections::HashMap;
use std::fmt::Debug;
use std::hash::Hash;
use std::mem::{discriminant, Discriminant};

/// What a table has in it, and after it, before a call.
const JUNK: u32 = 0xa5a5_a5a5;

/// What an unwritten destination holds.
pub const UNTOUCHED: u8 = 0xee;

/// How many numbers after a table are watched.
const WATCHED: usize = 4;

/// The numbers of entities and rows, or the refusal.
type Counts = Result<(usize, usize), Refusal>;

/// What was compared so far, and room for the tables.
#[derive(Default)]
pub struct Comparison {
    pub classes: Classes,
    pub refusals: [u64; 18],
    pub entities: u64,
    /// Texts that the Rust's objects borrow, at the places that the rows give.
    pub borrowed: u64,
    /// Readings whose leaves were compared with those of the Rust's objects.
    pub dumps: u64,
    pub altered: u64,
    pub short_tables: u64,
    pub path_reports: u64,
    pub path_repeats: u64,
    pub shared_paths: u64,
    pub calls: Calls,
    /// Texts, names and SQL texts of any row and at any offset.
    pub any_texts: u64,
    pub any_names: u64,
    pub any_starts: u64,
    pub any_sql_texts: u64,
    pub checks: u64,
    pub records: u64,
    pub mappings: u64,
    /// Values that are too long for the Rust's writer here.
    pub long: u64,
    /// Lengths of values that were not yet written.
    pub lengths: u64,
    pub payloads: u64,
    pub sections: u64,
    /// Rows that a writer of payloads or sections refuses, by the refusal's number.
    pub refused_rows: [u64; 18],
    pub differences: u64,
    turn: usize,
    table: Vec<u32>,
    by_layouts: Reading,
}

/// How many pairs of some things are equal.
fn pairs<T: Eq + Hash>(things: impl Iterator<Item = T>) -> u64 {
    let mut seen = HashMap::new();
    let mut pairs = 0;
    for thing in things {
        let before = seen.entry(thing).or_insert(0);
        pairs += *before;
        *before += 1;
    }
    pairs
}

/// The kind of each entity that has a full_path, and that path.
fn kinds_and_paths<'a>(
    entities: &'a [SqlGraphEntity],
) -> impl Iterator<Item = (Discriminant<SqlGraphEntity<'a>>, &'a str)> {
    entities.iter().filter_map(|entity| flatten::full_path(entity).map(|path| (discriminant(entity), path)))
}

impl Compare for Comparison {
    fn reading(&mut self, class: &'static str, what: What, bytes: &[u8]) {
        self.turn += 1;
        let mut reading = std::mem::take(&mut self.by_layouts);
        let expected = reading.read(what, bytes);
        let in_domain = bytes.len() <= LIMIT && reading.most <= MOST_RESERVED;
        let theirs = in_domain.then(|| oracle(what, bytes));

        self.classes.entry(class).or_default().add(&theirs);
        let expected = expected.map(|()| (reading.entities, reading.rows.len()));
        self.refusals[expected.err().map_or(0, |refusal| refusal.number() as usize)] += 1;
        self.attempt(what, bytes, |this| this.compare_answers(what, bytes, &reading, expected, &theirs));
        self.by_layouts = reading;
    }

    fn writing_back(&mut self, class: &'static str, bytes: &[u8]) {
        let rows = numbers(&self.by_layouts.rows);
        self.written_rows(class, What::Section, &rows, bytes, 0);
    }

    fn parts(&mut self, bytes: &[u8], random: &mut Random) {
        let rows = &self.by_layouts.rows;
        let none = Row::new(Sort::Text, 0, 0);
        let mut any = || if rows.is_empty() { none } else { rows[random.below(rows.len())] };
        let (text, mapping) = (any(), any());
        let size = [SQL_TEXT_SIZE, SQL_TEXT_SIZE, SQL_TEXT_SIZE, 30, 32, 0][random.below(6)];
        let mut near = |number: u32| match random.below(8) {
            0..3 => number.wrapping_add(random.below(5) as u32).wrapping_sub(2),
            3 => random.next() as u32 >> random.below(32),
            _ => number,
        };
        let (row, offset) = (Row::new(text.sort, near(text.offset), near(text.value)), near(mapping.offset));
        self.attempt("parts", bytes, |this| {
            this.compare_row(bytes, row)?;
            this.compare_sql_text(bytes, offset, size)
        });
    }

    fn text(&mut self, bytes: &[u8]) {
        self.checks += 1;
        if pgrxsc::is_text(bytes) != std::str::from_utf8(bytes).is_ok() {
            self.differ("a text", bytes, "the check of a text says otherwise");
        }
    }
}

impl Comparison {
    /// Counts a difference.
    fn differ(&mut self, what: impl Debug, bytes: &[u8], why: &str) {
        report::differ(&mut self.differences, what, bytes, why);
    }

    /// Counts a difference if the comparison finds one.
    fn attempt(&mut self, what: impl Debug, bytes: &[u8], compare: impl FnOnce(&mut Self) -> Result<(), String>) {
        if let Err(why) = report::attempt(|| compare(self)) {
            self.differ(what, bytes, &why);
        }
    }

    /// Compares the answer to one input with the Rust's, if there is one, and with that of the layouts.
    fn compare_answers(
        &mut self,
        what: What,
        bytes: &[u8],
        reading: &Reading,
        expected: Counts,
        theirs: &Option<Option<Objects>>,
    ) -> Result<(), String> {
        let rows = if expected.is_ok() { reading.rows.as_slice() } else { &[] };
        // As many rows as are needed, a few numbers more, or as many rows as there are bytes
        let spare = [0, self.turn % 5, bytes.len().min(1000) * ROW_WIDTH][self.turn % 3];
        let answer = self.read(what, bytes, rows.len() * ROW_WIDTH + spare)?;
        if let Some(theirs) = theirs {
            if answer.is_ok() != theirs.is_some() {
                return Err(format!("the answer is {answer:?}, the Rust's {theirs:?}"));
            }
        }
        if answer != expected {
            return Err(format!("the answer is {answer:?}, by the layouts {expected:?}"));
        }
        let (front, after) = self.table.split_at(rows.len() * ROW_WIDTH);
        let read = front.chunks_exact(ROW_WIDTH).map(|row| row.try_into().ok().and_then(Row::from_numbers));
        if !read.eq(rows.iter().copied().map(Some)) || after.iter().any(|&number| number != 0) {
            return Err(format!("the table is {:?}, by the layouts {rows:?}", self.table));
        }
        let around = match what {
            What::Section => 4 * reading.entities + 13 * reading.sentinels + reading.padding,
            _ => 0,
        };
        if answer.is_ok() && leaf_bytes(rows) + around != bytes.len() {
            return Err("the leaves do not fill the bytes".to_string());
        }
        if let Some(Some(objects)) = theirs {
            self.compare_objects(what, bytes, reading, objects)?;
        }
        if what == What::Section {
            self.compare_paths(bytes, answer, theirs)?;
        }
        self.compare_short(what, bytes, rows)
    }

    /// Reads by a table of `len` numbers, which is in `self.table` afterwards. Nothing after it may change.
    fn read(&mut self, what: What, bytes: &[u8], len: usize) -> Result<Counts, String> {
        self.table.clear();
        self.table.resize(len + WATCHED, JUNK);
        let answer = what.read(bytes, &mut self.table[..len]);
        let counts = answer.map(|reading| (reading.entities().len(), reading.rows().len()));
        let kept = self.table[len..] == [JUNK; WATCHED];
        self.table.truncate(len);
        match kept {
            true => Ok(counts),
            false => Err("what stands after the table changed".to_string()),
        }
    }

    /// Compares the Rust's objects with those made from the rows of a reading.
    fn compare_objects(
        &mut self,
        what: What,
        bytes: &[u8],
        reading: &Reading,
        objects: &Objects,
    ) -> Result<(), String> {
        let rows = reading.rows.as_slice();
        let rebuilt = rebuild::objects(what, bytes, rows, &mut self.calls)?;
        if rebuilt != *objects {
            return Err(format!("the Rust has {objects:?}, the rows {rebuilt:?}"));
        }
        let (theirs, ours) = (flatten::leaves(objects), flatten::leaves(&rebuilt));
        if !theirs.borrowed.iter().map(|text| text.as_ptr()).eq(ours.borrowed.iter().map(|text| text.as_ptr())) {
            return Err("a text stands elsewhere".to_string());
        }
        self.borrowed += theirs.borrowed.len() as u64;
        if !(0..rows.len()).any(|at| is_numeric(&rows[at..])) {
            self.dumps += 1;
            if theirs.dump != dump(rows, bytes) {
                return Err("the Rust's objects have other leaves".to_string());
            }
        }
        if let Objects::Entities(entities) = objects {
            self.entities += reading.entities as u64;
            if reading.entities != entities.len() {
                return Err(format!("{} entities, the Rust has {}", reading.entities, entities.len()));
            }
        }
        if self.turn % 16 == 0 && !rows.is_empty() {
            self.altered += alter_row(self.turn / 16, what, bytes, rows, objects)?;
        }
        Ok(())
    }

    /// Compares the path report with the Rust's objects, and its refusal with that of the reading.
    fn compare_paths(&mut self, bytes: &[u8], answer: Counts, theirs: &Option<Option<Objects>>) -> Result<(), String> {
        let report = pgrxsc::path_repeats(bytes);
        let expected = match (theirs, answer) {
            (_, Err(refusal)) => Err(refusal),
            (Some(Some(Objects::Entities(entities))), _) => {
                let repeats = pairs(kinds_and_paths(entities));
                self.shared_paths += pairs(kinds_and_paths(entities).map(|(_, path)| path)) - repeats;
                Ok(repeats)
            }
            // Outside the domain the Rust has no objects
            _ => Ok(report.unwrap_or(0)),
        };
        self.path_reports += 1;
        self.path_repeats += expected.unwrap_or(0);
        if report != expected {
            return Err(format!("the path report is {report:?}, by the Rust's objects {expected:?}"));
        }
        Ok(())
    }

    /// Reads again what gave these rows, by a table of up to a row less.
    fn compare_short(&mut self, what: What, bytes: &[u8], rows: &[Row]) -> Result<(), String> {
        if rows.is_empty() {
            return Ok(());
        }
        self.short_tables += 1;
        let answer = self.read(what, bytes, rows.len() * ROW_WIDTH - 1 - self.turn % ROW_WIDTH)?;
        match answer == Err(Refusal::new(13, 0)) && self.table.iter().all(|&number| number == 0) {
            true => Ok(()),
            false => Err(format!("a table of a row less gives {answer:?}, {:?}", self.table)),
        }
    }

    /// Compares the text and the SQL name of a row that need not come from a reading.
    fn compare_row(&mut self, bytes: &[u8], row: Row) -> Result<(), String> {
        let (start, len) = (row.offset as usize, row.value as usize);
        let text = bytes.get(start..start + len).and_then(|text| std::str::from_utf8(text).ok());
        let text = text.filter(|_| row.sort == Sort::Text && bytes.len() <= LIMIT);
        let refusal = Refusal::new(if bytes.len() > LIMIT { 1 } else { 15 }, 0);
        let expected = text.map(|_| (start, len)).ok_or(refusal);
        // By the very call that the Rust makes for a declared function
        let name = text.and_then(|text| text.split("::").last());
        let expected_name = name.map(|name| (start + len - name.len(), name.len())).ok_or(refusal);
        let answer = pgrxsc::row_text(bytes, row).map(|text| part(bytes, text));
        let answer_name = pgrxsc::sql_name(bytes, row).map(|name| part(bytes, name));
        self.any_texts += 1;
        self.any_names += 1;
        if (answer, answer_name) != (expected, expected_name) {
            return Err(format!(
                "the row {row:?} gives {answer:?} and {answer_name:?}, not {expected:?} and {expected_name:?}"
            ));
        }
        self.compare_start(bytes.get(start..start + len).unwrap_or(bytes))
    }

    /// Compares where the SQL name starts in bytes that need not be a text.
    fn compare_start(&mut self, bytes: &[u8]) -> Result<(), String> {
        let name = std::str::from_utf8(bytes).ok().and_then(|text| text.split("::").last());
        let expected = name.map(|name| bytes.len() - name.len());
        let answer = pgrxsc::name_start(bytes);
        self.any_starts += 1;
        if answer != expected {
            return Err(format!("the SQL name starts at {answer:?}, not at {expected:?}"));
        }
        Ok(())
    }

    /// Compares the SQL text of what stands at an offset, with a buffer of that size.
    fn compare_sql_text(&mut self, bytes: &[u8], offset: u32, size: usize) -> Result<(), String> {
        let mut buffer = vec![UNTOUCHED; size];
        let answer = sql_text(bytes, offset, &mut buffer);
        let expected = Reading::default().mapping_at(bytes, offset);
        let at = offset as usize;
        let theirs = bytes.get(at..).and_then(|bytes| EntryReader::new(bytes).read_sql_mapping_owned().ok());
        self.any_sql_texts += 1;

        let mut expected_buffer = vec![UNTOUCHED; size];
        let expected = match (expected, theirs) {
            (Err(refusal), None) => Err(refusal),
            // The Rust reads any number of bytes
            (Err(refusal), _) if refusal.number() == 1 => Err(refusal),
            (Ok(()), Some(SqlMapping::As(_))) if size != SQL_TEXT_SIZE => Err(Refusal::new(17, 0)),
            (Ok(()), Some(SqlMapping::As(text))) if bytes[at] == layouts::AS => {
                Ok(SqlText::Bytes((at + 5, text.len())))
            }
            (Ok(()), Some(SqlMapping::As(text))) => {
                expected_buffer[..text.len()].copy_from_slice(text.as_bytes());
                Ok(SqlText::Buffer((0, text.len())))
            }
            (Ok(()), Some(_)) => Err(Refusal::new(10, at)),
            (expected, theirs) => return Err(format!("at {offset} the layouts say {expected:?}, the Rust {theirs:?}")),
        };
        if answer != expected || buffer != expected_buffer {
            return Err(format!("the SQL text at {offset} is {answer:?}, {buffer:?}, not {expected:?}"));
        }
        Ok(())
    }

    /// Compares the length of a value that is not yet written, from its rows and their texts.
    fn compare_len(&mut self, what: What, rows: &[u32], text: &[u8], value: Value) {
        self.lengths += 1;
        let (answer, len) = (what.written_len(rows, text), value.len());
        if answer != Ok(len) {
            let why = format!("the length of a {what:?} is {answer:?}, by the Rust {len}; the rows are {rows:?}");
            self.differ("lent text", text, &why);
        }
    }

    /// Compares the length and the writing of a generated value.
    pub fn writing(&mut self, what: What, generator: &mut Generator) {
        let bytes = generator.make(what);
        self.by_layouts.read(what, &bytes).expect("what is generated is whole");
        if bytes.len() > written::MOST {
            self.long += 1;
            let value = Value::new(what, &self.by_layouts.rows, &bytes);
            let rows = numbers(&self.by_layouts.rows);
            return self.compare_len(what, &rows, &bytes, value);
        }
        let (lent, text) = written::lend(&self.by_layouts.rows, &bytes, &mut generator.random);
        let (value, rows) = (Value::new(what, &lent, &text), numbers(&lent));
        self.compare_len(what, &rows, &text, value);
        let theirs = value.write();
        match what {
            What::Metadata => self.records += 1,
            _ => self.mappings += 1,
        }

        let len = theirs.len();
        let mut dest = vec![UNTOUCHED; len + generator.random.below(20)];
        let answer = what.write(&rows, &text, &mut dest);
        if answer != Ok(len) || value.len() != len {
            self.differ(what, &theirs, &format!("written with {answer:?}, by the Rust {} and {len}", value.len()));
        } else if dest[..len] != theirs || dest[len..].iter().any(|&byte| byte != UNTOUCHED) {
            self.differ(what, &theirs, &format!("written as {}", shortened(&dest)));
        }
        let mut short = vec![UNTOUCHED; len - 1];
        let answer = what.write(&rows, &text, &mut short);
        if answer != Err(Refusal::new(17, 0)) || short.iter().any(|&byte| byte != UNTOUCHED) {
            self.differ(what, &theirs, &format!("written to a byte less with {answer:?}"));
        }
        // Both read back what was written; the rows are those that were given, but for offsets
        let class = if what == What::Metadata { "written records" } else { "written mappings" };
        let before = self.differences;
        self.reading(class, what, &dest[..len]);
        let plain = |rows: &[Row]| rows.iter().map(|row| (row.sort, row.value)).collect::<Vec<_>>();
        if self.differences == before && plain(&self.by_layouts.rows) != plain(&lent) {
            self.differ(what, &theirs, "other rows are read back");
        }
    }

    /// Compares the writing of a generated payload or section, whose texts stand elsewhere, and then of its rows damaged.
    pub fn writing_entities(&mut self, what: What, generator: &mut Generator) {
        let bytes = generator.make(what);
        self.by_layouts.read(what, &bytes).expect("what is generated is whole");
        let (rows, text) = written::lend(&self.by_layouts.rows, &bytes, &mut generator.random);
        let mut rows = numbers(&rows);
        let more = generator.random.below(20);
        let (class, damaged) = match what {
            What::Section => ("written sections", "sections of damaged rows"),
            _ => ("written payloads", "payloads of damaged rows"),
        };
        if let Some(back) = self.written_rows(class, what, &rows, &text, more) {
            if oracle(what, &back) != oracle(what, &bytes) {
                self.differ(what, &bytes, &format!("the Rust reads other objects from {}", shortened(&back)));
            }
        }
        let other = generator.make(What::Payload);
        self.by_layouts.read(What::Payload, &other).expect("what is generated is whole");
        let other = numbers(&self.by_layouts.rows);
        for _ in 0..=generator.random.below(8) / 6 {
            generator.damage_rows(&mut rows, &other);
        }
        self.written_rows(damaged, what, &rows, &text, more);
    }

    /// Compares the length and the writing of rows, and then the reading of what was written, which is returned. The destination
    /// has some bytes more than are needed.
    fn written_rows(
        &mut self,
        class: &'static str,
        what: What,
        rows: &[u32],
        text: &[u8],
        more: usize,
    ) -> Option<Vec<u8>> {
        let expected = spelled::written(what, rows, text);
        self.attempt((what, rows), text, |_| compare_writing(what, rows, text, more, &expected));
        match expected {
            Err(refusal) => {
                self.refused_rows[refusal.number() as usize] += 1;
                None
            }
            Ok(bytes) => {
                match what {
                    What::Section => self.sections += 1,
                    _ => self.payloads += 1,
                }
                // Both read it, and the rows are those that were given, but for offsets
                let before = self.differences;
                self.reading(class, what, &bytes);
                let read = self.by_layouts.rows.iter().map(|row| (row.sort.number(), row.value));
                let given = rows.chunks_exact(ROW_WIDTH).map(|row| (row[0], row[2]));
                if self.differences == before && !read.eq(given) {
                    self.differ(what, &bytes, "other rows are read back");
                }
                Some(bytes)
            }
        }
    }
}

/// Compares the length and the writing of rows with what is expected of them.
fn compare_writing(
    what: What,
    rows: &[u32],
    text: &[u8],
    more: usize,
    expected: &Result<Vec<u8>, Refusal>,
) -> Result<(), String> {
    let len = expected.as_ref().map(Vec::len).map_err(|refusal| *refusal);
    let measured = what.written_len(rows, text);
    if measured != len {
        return Err(format!("the length is {measured:?}, by the layouts {len:?}"));
    }
    let bytes = expected.as_deref().unwrap_or_default();
    let mut dest = vec![UNTOUCHED; bytes.len() + more];
    let answer = what.write(rows, text, &mut dest);
    if answer != len {
        return Err(format!("written with {answer:?}, by the layouts {len:?}"));
    }
    let (front, after) = dest.split_at(bytes.len());
    if front != bytes || after.iter().any(|&byte| byte != UNTOUCHED) {
        return Err(format!("written as {}, by the layouts {}", shortened(&dest), shortened(bytes)));
    }
    if let Some(short) = bytes.len().checked_sub(1) {
        let mut dest = vec![UNTOUCHED; short];
        let answer = what.write(rows, text, &mut dest);
        if answer != Err(Refusal::new(17, 0)) || dest.iter().any(|&byte| byte != UNTOUCHED) {
            return Err(format!("written to a byte less with {answer:?}, as {}", shortened(&dest)));
        }
    }
    Ok(())
}

/// The leaves of rows, as `flatten` gives those of objects.
fn dump(rows: &[Row], bytes: &[u8]) -> Vec<u8> {
    let mut dump = Vec::new();
    for row in rows {
        match row.sort {
            Sort::Text => dump.extend(&bytes[row.offset as usize..(row.offset + row.value) as usize]),
            _ => dump.extend(row.value.to_le_bytes()),
        }
    }
    dump
}

/// The bytes that leaves take, from their rows.
fn leaf_bytes(rows: &[Row]) -> usize {
    let size = |row: &Row| match row.sort {
        Sort::Kind | Sort::Tag | Sort::Flag => 1,
        Sort::Number | Sort::Count => 4,
        Sort::Text => 4 + row.value as usize,
    };
    rows.iter().map(size).sum()
}

/// Alters one of the rows: other objects must come of it, or none, so that no field goes unnoticed. The rows of a Numeric are
/// left out, since some of its numbers are not used. Tells how many rows were altered.
fn alter_row(turn: usize, what: What, bytes: &[u8], rows: &[Row], objects: &Objects) -> Result<u64, String> {
    let mut rows = rows.to_vec();
    let at = turn % rows.len();
    if in_numeric(&rows, at) {
        return Ok(0);
    }
    let value = &mut rows[at].value;
    *value = if *value == 0 { 1 } else { *value - 1 };
    match rebuild::objects(what, bytes, &rows, &mut Calls::default()) {
        Ok(altered) if altered == *objects => Err(format!("row {at} can be altered")),
        _ => Ok(1),
    }
}

/// Whether rows begin with those of a Numeric.
fn is_numeric(rows: &[Row]) -> bool {
    let sorts = [Sort::Tag, Sort::Flag, Sort::Number, Sort::Flag, Sort::Number];
    rows.len() >= sorts.len()
        && rows[0].value == layouts::NUMERIC.into()
        && sorts.iter().zip(rows).all(|(sort, row)| *sort == row.sort)
}

/// Whether a row is one of the four after the tag of a Numeric.
fn in_numeric(rows: &[Row], at: usize) -> bool {
    (at.saturating_sub(4)..at).any(|tag| is_numeric(&rows[tag..]))
}
