//! Directories of sections, and what holds a byte of them, beside what pgrx-sql-entity-graph reads. Built and run by
//! `compare/directory`. The Rust's payloads tell where the entries are, and its objects tell the kinds of entities and how many
//! rows they have. The layouts tell only how many Numerics an entity has, since the Rust makes them As, and the numbers of rows
//! outside the domain.
#[allow(dead_code)]
mod common;
mod exports;
#[allow(dead_code)]
mod flatten;
#[allow(dead_code)]
mod generate;
mod inputs;
#[allow(dead_code)]
mod layouts;
mod objects;
mod report;
#[allow(dead_code)]
mod sections;
#[allow(dead_code)]
mod what;

use common::Random;
use exports::{entity_at, read_directory, Answer, Record};
use flatten::Leaves;
use generate::Generator;
use inputs::{large, large_lists, options, short, systematic, Compare};
use layouts::{four, Reading, SENTINEL};
use objects::{oracle, Objects, MOST_RESERVED};
use pgrx_sql_entity_graph::section::{entry_payloads, SECTION_SENTINEL_PAYLOAD};
use pgrxsc::{read_section, Sort, LIMIT, ROW_WIDTH};
use report::Classes;
use sections::{entries, schema, Entry, MIB};
use std::ops::Range;
use std::process::exit;
use what::What;

/// What a table has in it, and after it, before a call.
const JUNK: u32 = 0xa5a5_a5a5;

/// How many numbers after a table, and records after a list, are watched.
const WATCHED: usize = 4;

/// The most bytes of a section of which all positions are asked for.
const ALL_POSITIONS: usize = 200;

/// Of a section of more than 1 MiB, how many positions are asked for, and how many tables and lists are too short.
const FEW: usize = 4;

/// How many rows more a Numeric has than an As: two flags and two numbers in place of a text.
const MORE_ROWS: usize = 3;

/// What a record of a list holds before a call.
fn untouched(i: usize) -> Record {
    let number = |field: usize| JUNK.wrapping_add((5 * i + field) as u32);
    Record { kind: number(0), start: number(1), length: number(2), first_row: number(3), row_count: number(4) }
}

/// What is expected of an accepted section.
#[derive(Default)]
struct Expected {
    /// Where the entries are, those of sentinels too.
    entries: Vec<Range<usize>>,
    records: Vec<Record>,
    rows: usize,
    /// How many entities have no Numeric, so that their rows come from the Rust's objects alone.
    without_numeric: u64,
}

impl Expected {
    /// By the Rust's payloads and objects; outside the domain there are no objects. The section has that many Numerics.
    fn new(bytes: &[u8], objects: Option<&Objects>, numerics: usize) -> Result<Self, String> {
        let payloads = entry_payloads(bytes).map_err(|_| "the Rust has no entries")?;
        let entry = |payload: &[u8]| {
            let start = payload.as_ptr().addr() - bytes.as_ptr().addr();
            start - 4..start + payload.len()
        };
        let mut expected = Expected::default();
        expected.entries.extend(payloads.iter().map(|payload| entry(payload)));

        let mut entities = match objects {
            Some(Objects::Entities(entities)) => Some(entities.iter()),
            _ => None,
        };
        let mut reading = Reading::default();
        for payload in payloads.into_iter().filter(|payload| *payload != SECTION_SENTINEL_PAYLOAD) {
            if numerics > 0 || entities.is_none() {
                reading.read(What::Payload, payload).map_err(|refusal| format!("by the layouts {refusal:?}"))?;
            }
            let (kind, row_count) = match &mut entities {
                Some(entities) => {
                    let mut leaves = Leaves::default();
                    leaves.entity(entities.next().ok_or("the Rust has more payloads than objects")?);
                    expected.without_numeric += u64::from(reading.numerics == 0);
                    (four(&leaves.dump, 0), leaves.count + MORE_ROWS * reading.numerics)
                }
                None => (payload[0].into(), reading.rows.len()),
            };
            let Range { start, end } = entry(payload);
            let (start, length) = (start as u32, (end - start) as u32);
            let (first_row, row_count) = (expected.rows as u32, row_count as u32);
            expected.records.push(Record { kind, start, length, first_row, row_count });
            expected.rows += row_count as usize;
        }
        match entities.and_then(|mut entities| entities.next()) {
            Some(_) => Err("the Rust has more objects than payloads".to_string()),
            None => Ok(expected),
        }
    }

    /// The answer to a position.
    fn at(&self, position: u64) -> Answer {
        let holds = |record: &Record| {
            let start = u64::from(record.start);
            (start..start + u64::from(record.length)).contains(&position)
        };
        match self.records.iter().position(holds) {
            Some(index) => [0, 0, 1, index as u64],
            None => [0; 4],
        }
    }
}

fn refused(number: u64, place: u64) -> Answer {
    [number, place, 0, 0]
}

fn sentinel() -> Entry {
    Entry(SENTINEL.to_vec())
}

/// How often each thing was compared.
#[derive(Default)]
struct Counts {
    entities: u64,
    without_numeric: u64,
    exact_lists: u64,
    longer_lists: u64,
    short_lists: u64,
    short_tables: u64,
    both_short: u64,
    refused: u64,
    held: u64,
    not_held: u64,
    refused_positions: u64,
}

/// What was compared so far, and room for tables and lists.
struct Directory {
    classes: Classes,
    refusals: [u64; 13],
    counts: Counts,
    differences: u64,
    turn: usize,
    random: Random,
    by_layouts: Reading,
    plain: Vec<u32>,
    table: Vec<u32>,
    list: Vec<Record>,
}

impl Compare for Directory {
    /// A payload is compared as the second of three entries. Metadata and mappings alone have no directory.
    fn reading(&mut self, class: &'static str, what: What, bytes: &[u8]) {
        match what {
            What::Section => self.section(class, bytes),
            What::Payload => {
                let mut section = Vec::new();
                for entry in [sentinel(), Entry(bytes.to_vec()), schema(b"")] {
                    entry.add_to(&mut section);
                }
                self.section(class, &section);
            }
            What::Metadata | What::Mapping => {}
        }
    }
}

impl Directory {
    fn new(seed: u64) -> Self {
        Directory {
            classes: Classes::new(),
            refusals: [0; 13],
            counts: Counts::default(),
            differences: 0,
            turn: 0,
            random: Random(seed | 1),
            by_layouts: Reading::default(),
            plain: Vec::new(),
            table: Vec::new(),
            list: Vec::new(),
        }
    }

    /// Compares what is said of one section.
    fn section(&mut self, class: &'static str, bytes: &[u8]) {
        self.turn += 1;
        let by_layouts = self.by_layouts.read(What::Section, bytes);
        let in_domain = bytes.len() <= LIMIT && self.by_layouts.most <= MOST_RESERVED;
        let theirs = in_domain.then(|| oracle(What::Section, bytes));
        self.classes.entry(class).or_default().add(&theirs);
        let accepted = theirs.as_ref().map_or(by_layouts.is_ok(), Option::is_some);
        let compared = report::attempt(|| match accepted {
            true => {
                let objects = theirs.as_ref().and_then(Option::as_ref);
                let expected = Expected::new(bytes, objects, self.by_layouts.numerics)?;
                self.compare_accepted(bytes, &expected)
            }
            false => self.compare_refused(bytes),
        });
        if let Err(why) = compared {
            report::differ(&mut self.differences, class, bytes, &why);
        }
    }

    /// The answer of the plain reading by a table of `len` numbers, which is in `self.plain` afterwards.
    fn read_plain(&mut self, bytes: &[u8], len: usize) -> Answer {
        self.plain.clear();
        self.plain.resize(len, JUNK);
        match read_section(bytes, &mut self.plain) {
            Ok(reading) => [0, 0, reading.entities().len() as u64, reading.rows().len() as u64],
            Err(refusal) => refused(refusal.number().into(), refusal.place() as u64),
        }
    }

    /// Reads a directory by a table of `len` numbers and a list of `count` records, which are in `self.table` and `self.list`
    /// afterwards. Nothing after them may change.
    fn read(&mut self, bytes: &[u8], len: usize, count: usize) -> Result<Answer, String> {
        self.table.clear();
        self.table.resize(len + WATCHED, JUNK);
        self.list.clear();
        self.list.extend((0..count + WATCHED).map(untouched));
        let answer = read_directory(bytes, &mut self.table[..len], &mut self.list[..count]);
        let kept = self.table[len..] == [JUNK; WATCHED] && self.touched(count).is_none();
        self.table.truncate(len);
        self.list.truncate(count);
        match kept {
            true => Ok(answer),
            false => Err("what stands after the table or the list changed".to_string()),
        }
    }

    /// The first record that changed, of those from an index on.
    fn touched(&self, from: usize) -> Option<usize> {
        (from..self.list.len()).find(|&i| self.list[i] != untouched(i))
    }

    /// Compares the directory of an accepted section, and what holds its bytes.
    fn compare_accepted(&mut self, bytes: &[u8], expected: &Expected) -> Result<(), String> {
        let (count, whole) = (expected.records.len(), expected.rows * ROW_WIDTH);
        // As many rows as are needed, a few numbers more, or as many rows as there are bytes
        let len = whole + [0, self.turn % 5, bytes.len().min(1000) * ROW_WIDTH][self.turn % 3];
        let answer = [0, 0, count as u64, expected.rows as u64];
        let plain = self.read_plain(bytes, len);
        if plain != answer {
            return Err(format!("the plain reading's answer is {plain:?}, by the Rust {answer:?}"));
        }
        self.refusals[0] += 1;
        self.counts.entities += count as u64;
        self.counts.without_numeric += expected.without_numeric;
        let is_first = |record: &Record| {
            let row = [Sort::Kind.number(), record.start + 4, record.kind];
            self.plain[record.first_row as usize * ROW_WIDTH..].starts_with(&row)
        };
        if let Some(record) = expected.records.iter().find(|record| !is_first(record)) {
            return Err(format!("the table does not have the first row of {record:?}"));
        }

        let more = [1, 2, 5, 30][self.turn % 4];
        for more in [0, more] {
            self.compare_filled(bytes, len, count + more, answer, &expected.records)?;
        }
        let mut too_short = Vec::new();
        if let Some(fewer) = count.checked_sub(1) {
            too_short.extend([fewer, 0].map(|list| (len, list)));
            too_short.extend([count, count + more, fewer, 0].map(|list| (whole - 1 - self.turn % ROW_WIDTH, list)));
        }
        self.few_if_large(bytes, &mut too_short);
        for (len, list) in too_short {
            let number = if len < whole { 13 } else { 21 };
            self.compare_unfilled(bytes, len, list, refused(number, 0))?;
            match (len < whole, list < count) {
                (true, true) => self.counts.both_short += 1,
                (true, false) => self.counts.short_tables += 1,
                _ => self.counts.short_lists += 1,
            }
        }
        let mut positions = self.positions(bytes.len(), &expected.entries);
        self.few_if_large(bytes, &mut positions);
        for position in positions {
            let (answer, expected) = (entity_at(bytes, position), expected.at(position));
            if answer != expected {
                return Err(format!("at {position} the answer is {answer:?}, by the Rust {expected:?}"));
            }
            match answer[2] {
                1 => self.counts.held += 1,
                _ => self.counts.not_held += 1,
            }
        }
        Ok(())
    }

    /// Leaves out all but a few of the things that a large section would be read for, one after the other.
    fn few_if_large<T>(&mut self, bytes: &[u8], things: &mut Vec<T>) {
        while bytes.len() > MIB && things.len() > FEW {
            things.swap_remove(self.random.below(things.len()));
        }
    }

    /// Compares a directory whose list has these records or more. The table must be that of the plain reading.
    fn compare_filled(
        &mut self,
        bytes: &[u8],
        len: usize,
        count: usize,
        expected: Answer,
        records: &[Record],
    ) -> Result<(), String> {
        let answer = self.read(bytes, len, count)?;
        if answer != expected {
            return Err(format!("with {count} records the answer is {answer:?}, by the Rust {expected:?}"));
        }
        if let Some(i) = (0..len).find(|&i| self.table[i] != self.plain[i]) {
            let (ours, plain) = (self.table[i], self.plain[i]);
            return Err(format!("number {i} of the table is {ours}, that of the plain reading {plain}"));
        }
        if let Some(i) = (0..records.len()).find(|&i| self.list[i] != records[i]) {
            return Err(format!("record {i} is {:?}, by the Rust {:?}", self.list[i], records[i]));
        }
        if let Some(i) = self.touched(records.len()) {
            return Err(format!("record {i}, after those of {} entities, is {:?}", records.len(), self.list[i]));
        }
        match count == records.len() {
            true => self.counts.exact_lists += 1,
            false => self.counts.longer_lists += 1,
        }
        Ok(())
    }

    /// Compares a directory that is refused.
    fn compare_unfilled(&mut self, bytes: &[u8], len: usize, count: usize, expected: Answer) -> Result<(), String> {
        let answer = self.read(bytes, len, count)?;
        if answer != expected {
            return Err(format!(
                "with {len} numbers and {count} records the answer is {answer:?}, and not {expected:?}"
            ));
        }
        if let Some(i) = self.table.iter().position(|&number| number != 0) {
            return Err(format!("after {answer:?} number {i} of the table is {}", self.table[i]));
        }
        match self.touched(0) {
            Some(i) => Err(format!("after {answer:?} record {i} is {:?}", self.list[i])),
            None => Ok(()),
        }
    }

    /// Compares the refusal of a section with that of the plain reading.
    fn compare_refused(&mut self, bytes: &[u8]) -> Result<(), String> {
        let len = [0, self.turn % 5, bytes.len().min(1000) * ROW_WIDTH][self.turn % 3];
        let plain = self.read_plain(bytes, len);
        if !(1..=12).contains(&plain[0]) {
            return Err(format!("the plain reading's answer is {plain:?}"));
        }
        self.refusals[plain[0] as usize] += 1;
        for count in [0, 1 + self.turn % 8] {
            self.compare_unfilled(bytes, len, count, plain)?;
            self.counts.refused += 1;
        }
        let end = bytes.len() as u64;
        for position in [self.random.below(bytes.len() + 1) as u64, [0, end, u64::MAX][self.turn % 3]] {
            let answer = entity_at(bytes, position);
            if answer != plain {
                return Err(format!("at {position} the answer is {answer:?}, that of the plain reading {plain:?}"));
            }
            self.counts.refused_positions += 1;
        }
        Ok(())
    }

    /// Positions of a section: all of a short one, otherwise the first and the last ones of some entries, and any others; then
    /// the section's end, and some past it.
    fn positions(&mut self, len: usize, entries: &[Range<usize>]) -> Vec<u64> {
        let mut positions = Vec::new();
        if len <= ALL_POSITIONS {
            positions.extend(0..len);
        } else {
            if let Some((last, others)) = entries.split_last() {
                let first = self.random.below(others.len().saturating_sub(5) + 1);
                for Range { start, end } in others.iter().skip(first).take(5).chain([last]) {
                    positions.extend([*start, start + 3, start + 4, end - 1, *end]);
                }
            }
            positions.extend([self.random.below(len), self.random.below(len), len - 1]);
        }
        let (end, any) = (len as u64, self.random.below(len.max(1)) as u64);
        let past = [end, end + 1, any + (1 << 32), any | 1 << 63, u64::MAX];
        positions.into_iter().map(|position| position as u64).chain(past).collect()
    }

    /// Prints what was compared, and ends.
    fn print(self, seed: u64) -> ! {
        let Directory { classes, refusals, counts, differences, .. } = self;
        let compared = [
            ("entities", counts.entities),
            ("entities without a Numeric", counts.without_numeric),
            ("lists of just enough records", counts.exact_lists),
            ("longer lists", counts.longer_lists),
            ("lists too short, 21", counts.short_lists),
            ("tables too short, 13", counts.short_tables),
            ("both too short, 13", counts.both_short),
            ("directories refused, 1 to 12", counts.refused),
            ("positions in an entity", counts.held),
            ("positions in none", counts.not_held),
            ("positions refused, 1 to 12", counts.refused_positions),
        ];
        println!("seed {seed}\n");
        report::print(&classes, &refusals, &compared, differences);
        let enough = compared.iter().all(|(_, count)| *count > 0);
        if !enough {
            println!("too little was compared");
        }
        exit((differences > 0 || !enough).into());
    }
}

/// Sections by the layouts, each followed by a damaged one. Half of them have no Numerics, so that the layouts are not needed.
fn generated(directory: &mut Directory, cases: u64, seed: u64) {
    let mut generator = Generator::new(seed);
    for case in 0..cases {
        generator.numeric = case % 2 == 0;
        directory.reading("generated sections", What::Section, &generator.make(What::Section));
        directory.reading("damaged sections", What::Section, &generator.damaged(What::Section));
    }
}

/// Sections of the shortest entities: as many as fit, and some 90,000 with sentinels among them.
fn short_entries(directory: &mut Directory) {
    let all = entries(LIMIT, |_| schema(b""));
    let mixed = entries(2 * MIB, |i| if i % 7 == 3 { sentinel() } else { schema(b"") });
    for section in [all, mixed] {
        directory.reading("short entries", What::Section, &section);
    }
}

fn main() {
    let options = options("compare/directory [--cases N] [--seed S]", 60_000, None);
    let (cases, seed) = (options["--cases"], options["--seed"]);
    let mut directory = Directory::new(seed);
    let mut generator = Generator::new(seed);
    generated(&mut directory, cases, seed);
    systematic(&mut directory, cases.div_ceil(2000), seed);
    large(&mut directory, &mut generator);
    large_lists(&mut directory, &mut generator);
    short_entries(&mut directory);
    short(&mut directory, 2);
    directory.print(seed);
}
