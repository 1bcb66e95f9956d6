//! The inputs that are compared with the Rust, and the options that say how many and which.
use crate::common::Random;
use crate::generate::Generator;
use crate::layouts::{four, Reading, SENTINEL};
use crate::objects::MOST_RESERVED;
use crate::what::What;
use pgrxsc::{Row, Sort, LIMIT};
use std::collections::{HashMap, HashSet};

/// What is given the inputs.
pub trait Compare {
    /// Compares the reading of one input.
    fn reading(&mut self, class: &'static str, what: What, bytes: &[u8]);

    /// Compares the writing of a section from the rows that were read last, those of these bytes.
    fn writing_back(&mut self, _class: &'static str, _bytes: &[u8]) {}

    /// Compares the texts of any row, and the SQL text at any offset: near those of the last input, which had these bytes.
    fn parts(&mut self, _bytes: &[u8], _random: &mut Random) {}

    /// Compares the check of a text.
    fn text(&mut self, _bytes: &[u8]) {}
}

/// The numbers of `--cases` and `--seed`, and of another option. If an argument is none of these, the usage is printed.
pub fn options(usage: &str, cases: u64, other: Option<&str>) -> HashMap<String, u64> {
    let mut options = HashMap::from([("--cases".to_string(), cases), ("--seed".to_string(), 3629)]);
    let mut arguments = std::env::args().skip(1);
    while let Some(name) = arguments.next() {
        let known = ["--cases", "--seed"].into_iter().chain(other).any(|option| option == name);
        match arguments.next().map(|value| value.parse()) {
            Some(Ok(value)) if known => drop(options.insert(name, value)),
            _ => {
                eprintln!("{usage}");
                std::process::exit(2);
            }
        }
    }
    options
}

/// Entities of each kind, records and mappings, with each leaf altered, each prefix, and a byte more.
pub fn systematic(comparison: &mut impl Compare, turns: u64, seed: u64) {
    let mut generator = Generator::new(seed);
    let mut reading = Reading::default();
    for turn in 0..turns * 11 {
        let (what, mut bytes) = match turn % 11 {
            0 => (What::Metadata, generator.make(What::Metadata)),
            1 => (What::Mapping, generator.make(What::Mapping)),
            kind => (What::Payload, generator.entity(kind as u8 - 1)),
        };
        reading.read(what, &bytes).expect("what is generated is whole");
        for &row in &reading.rows {
            for (at, altered) in alterations(row, &bytes) {
                let range = at..at + altered.len();
                let before = bytes[range.clone()].to_vec();
                bytes[range.clone()].copy_from_slice(&altered);
                comparison.reading("each leaf altered", what, &bytes);
                bytes[range].copy_from_slice(&before);
            }
        }
        bytes.push(0);
        for len in (0..=bytes.len()).filter(|len| len + 1 != bytes.len()) {
            comparison.reading("each prefix, a byte more", what, &bytes[..len]);
        }
    }
}

/// For the leaf of a row, other bytes and where they go.
fn alterations(row: Row, bytes: &[u8]) -> Vec<(usize, Vec<u8>)> {
    let (offset, len) = (row.offset as usize, row.value as usize);
    let numbers = |at: usize| {
        let number = four(bytes, at);
        [number.wrapping_sub(1), number.wrapping_add(1), u32::MAX].map(|number| (at, number.to_le_bytes().to_vec()))
    };
    let mut altered = Vec::new();
    match row.sort {
        Sort::Number | Sort::Count => altered.extend(numbers(offset)),
        Sort::Text => {
            altered.extend(numbers(offset - 4));
            if len > 0 {
                altered.extend([(offset, vec![0x80]), (offset + len - 1, vec![0xc3])]);
            }
        }
        _ => altered.extend((0..=20).chain([127, 128, 255]).map(|byte| (offset, vec![byte]))),
    }
    altered
}

/// All strings of up to `most` bytes, three at most: as sections, payloads, records, mappings and texts, and as the name of a
/// schema.
pub fn short(comparison: &mut impl Compare, most: usize) {
    for len in 0..=most {
        let mut named = [&(17 + len as u32).to_le_bytes(), [1, 0, 0, 0, 0, len as u8].as_slice(), &[0; 11]].concat();
        named.resize(21 + len, 0);
        for number in 0..1u32 << (8 * len) {
            let bytes = &number.to_le_bytes()[..len];
            comparison.text(bytes);
            comparison.reading("short sections", What::Section, bytes);
            comparison.reading("short payloads", What::Payload, bytes);
            comparison.reading("short records", What::Metadata, bytes);
            comparison.reading("short mappings", What::Mapping, bytes);
            named[13..13 + len].copy_from_slice(bytes);
            comparison.reading("short names in a schema", What::Section, &named);
        }
    }
}

/// Sections of up to 16,777,216 bytes, and of one more.
pub fn large(comparison: &mut impl Compare, generator: &mut Generator) {
    const LARGE: &str = "large sections";
    // One text, then the same with a bad last byte
    for sizes in [[1].as_slice(), &[3], &[1, 2, 3, 4]] {
        let mut text = generator.random.text(LIMIT - 25, sizes);
        text.resize(LIMIT - 21, b'a');
        let mut section = schema(&text);
        comparison.reading(LARGE, What::Section, &section);
        comparison.writing_back(LARGE, &section);
        section[LIMIT - 13] = 0xc3;
        comparison.reading(LARGE, What::Section, &section);
    }
    // Padding, padding that ends otherwise, and sentinels
    comparison.reading(LARGE, What::Section, &vec![0; LIMIT]);
    comparison.reading(LARGE, What::Section, &[vec![0; LIMIT - 1], vec![1]].concat());
    let sentinel = [&[9, 0, 0, 0], SENTINEL].concat();
    let mut section = sentinel.repeat(LIMIT / sentinel.len());
    section.resize(LIMIT, 0);
    comparison.reading(LARGE, What::Section, &section);
    // Entities, and the same with a byte changed in the last ones
    let mut section = Vec::new();
    while section.len() < LIMIT - (1 << 16) {
        let payload = generator.make(What::Payload);
        section.extend((payload.len() as u32).to_le_bytes());
        section.extend(payload);
    }
    let end = section.len();
    section.resize(LIMIT, 0);
    comparison.reading(LARGE, What::Section, &section);
    comparison.writing_back(LARGE, &section);
    for _ in 0..10 {
        let at = end - 1 - generator.random.below(1000);
        let byte = std::mem::replace(&mut section[at], generator.random.next() as u8);
        comparison.reading(LARGE, What::Section, &section);
        section[at] = byte;
    }
    section.push(0);
    comparison.reading(LARGE, What::Section, &section);
    comparison.parts(&section, &mut generator.random);
}

/// Each list with 100,000 items, and with one more.
pub fn large_lists(comparison: &mut impl Compare, generator: &mut Generator) {
    const FEW: u32 = 77;
    generator.text_len = 2;
    let mut reading = Reading::default();
    let mut seen = HashSet::new();
    for turn in 0..1000 {
        let (kind, before) = ([2, 3, 5, 8][turn % 4], turn / 4 % 5);
        let state = generator.random.0;
        let mut make = |count| {
            generator.random = Random(state);
            generator.many = Some((before, count));
            let payload = generator.entity(kind);
            [&(payload.len() as u32).to_le_bytes(), payload.as_slice()].concat()
        };
        // A list is told by the rows before its count
        reading.read(What::Section, &make(FEW)).expect("what is generated is whole");
        let rows = &reading.rows;
        let Some(at) = rows.iter().position(|row| (row.sort, row.value) == (Sort::Count, FEW)) else { continue };
        let (second, last) = (rows[at - 2], rows[at - 1]);
        let tag = if last.sort == Sort::Tag { last.value } else { 0 };
        if seen.insert((kind, second.sort, last.sort, tag)) {
            let (most, more) = (make(MOST_RESERVED), make(MOST_RESERVED + 1));
            comparison.reading("lists of 100,000", What::Section, &most);
            comparison.reading("lists of 100,000, cut short", What::Payload, &most[4..most.len() - 1]);
            comparison.reading("lists of 100,001", What::Section, &more);
        }
    }
}

/// A section of one schema with that module_path.
fn schema(module_path: &[u8]) -> Vec<u8> {
    let len = module_path.len() as u32;
    [&(len + 17).to_le_bytes(), [1].as_slice(), &len.to_le_bytes(), module_path, &[0; 12]].concat()
}
