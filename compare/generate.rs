//! Bytes made from the layouts, whole and damaged.
use crate::common::Random;
use crate::layouts::{
    case, four, Cases, Layout, Parts, Reading, ARGUMENT_SQL, AS, CUSTOM_SQL, ENTITY, MAPPING, METADATA, NUMERIC,
    SENTINEL,
};
use crate::what::What;
use pgrxsc::{Row, Sort, ROW_WIDTH};

pub struct Generator {
    pub random: Random,
    /// Whether there are Numeric mappings.
    pub numeric: bool,
    /// Whether the unused numbers of a Numeric may be other than 0.
    pub unused: bool,
    /// The length of texts, but for rare ones.
    pub text_len: usize,
    /// Whether a declaration's result is any argument-side result, which may be well made and still refused.
    any_declared: bool,
    /// Which of the lists made from now on, counted from 0, has how many items.
    pub many: Option<(usize, u32)>,
}

impl Generator {
    pub fn new(seed: u64) -> Self {
        Generator {
            random: Random(seed | 1),
            numeric: true,
            unused: true,
            text_len: 12,
            any_declared: false,
            many: None,
        }
    }

    pub fn make(&mut self, what: What) -> Vec<u8> {
        let mut bytes = Vec::new();
        match what {
            What::Section => {
                let payloads = self.payloads();
                bytes = self.frame(&payloads);
            }
            What::Payload => self.part(&ENTITY, &mut bytes),
            What::Metadata => self.part(&METADATA, &mut bytes),
            What::Mapping => self.part(&MAPPING, &mut bytes),
        }
        bytes
    }

    /// The payloads of a section: up to six entities and sentinels.
    fn payloads(&mut self) -> Vec<Vec<u8>> {
        let count = self.random.below(7);
        (0..count).map(|_| if self.one_in(5) { SENTINEL.to_vec() } else { self.make(What::Payload) }).collect()
    }

    /// A section of these payloads, with padding.
    fn frame(&mut self, payloads: &[Vec<u8>]) -> Vec<u8> {
        let mut section = Vec::new();
        for payload in payloads {
            section.extend((payload.len() as u32).to_le_bytes());
            section.extend(payload);
        }
        let padding = if self.one_in(2) { 0 } else { self.random.below(10) };
        section.extend(std::iter::repeat_n(0, padding));
        section
    }

    /// The bytes of an entity of that kind.
    pub fn entity(&mut self, kind: u8) -> Vec<u8> {
        let Layout::Kind(cases) = ENTITY else { unreachable!() };
        let mut bytes = vec![kind];
        self.parts(case(cases, kind).unwrap(), &mut bytes);
        bytes
    }

    fn one_in(&mut self, n: usize) -> bool {
        self.random.below(n) == 0
    }

    fn parts(&mut self, parts: Parts, bytes: &mut Vec<u8>) {
        parts.iter().for_each(|part| self.part(part, bytes));
    }

    fn part(&mut self, layout: &Layout, bytes: &mut Vec<u8>) {
        match layout {
            Layout::Flag => bytes.push(self.random.below(2) as u8),
            Layout::Number => bytes.extend(self.number().to_le_bytes()),
            Layout::Text => self.text(bytes),
            Layout::Numeric => (0..2).for_each(|_| self.half_numeric(bytes)),
            Layout::All(parts) => self.parts(parts, bytes),
            Layout::Kind(cases) | Layout::Tag(cases) => {
                let tag = self.tag(cases);
                bytes.push(tag);
                self.parts(case(cases, tag).unwrap(), bytes);
            }
            Layout::Named(cases) => {
                let tag = self.tag(cases);
                bytes.push(tag);
                self.name(bytes);
                self.parts(case(cases, tag).unwrap(), bytes);
            }
            Layout::May(parts) => {
                bytes.push(self.random.below(2) as u8);
                if bytes.last() == Some(&1) {
                    self.parts(parts, bytes);
                }
            }
            Layout::List(parts) => {
                let count = self.count();
                bytes.extend(count.to_le_bytes());
                (0..count).for_each(|_| self.parts(parts, bytes));
            }
            Layout::Declared => self.declared(bytes),
        }
    }

    fn declared(&mut self, bytes: &mut Vec<u8>) {
        if self.any_declared {
            return self.part(&ARGUMENT_SQL, bytes);
        }
        let numeric = self.numeric && self.one_in(3);
        bytes.extend([1, if numeric { NUMERIC } else { AS }]);
        self.part(if numeric { &Layout::Numeric } else { &Layout::Text }, bytes);
    }

    fn half_numeric(&mut self, bytes: &mut Vec<u8>) {
        let used = self.one_in(2);
        let number = if used || self.unused && self.one_in(2) { self.number() } else { 0 };
        bytes.push(used.into());
        bytes.extend(number.to_le_bytes());
    }

    /// A tag of one of the cases, each as likely as any other.
    fn tag(&mut self, cases: Cases) -> u8 {
        loop {
            let (first, last, parts) = cases[self.random.below(cases.len())];
            if self.numeric || !matches!(parts, [Layout::Numeric]) {
                return first + self.random.below((last - first + 1).into()) as u8;
            }
        }
    }

    fn count(&mut self) -> u32 {
        if let Some((before, count)) = self.many {
            self.many = before.checked_sub(1).map(|before| (before, count));
            return if before == 0 { count } else { self.random.below(2) as u32 };
        }
        let most = [1, 2, 3, 4, 7][self.random.below(5)];
        self.random.below(most) as u32
    }

    fn number(&mut self) -> u32 {
        let edges = [0, 1, 9, 10, 255, 256, 99_999, 100_000, 16_777_216, u32::MAX - 1, u32::MAX];
        match self.random.below(4) {
            0 => edges[self.random.below(edges.len())],
            1 => self.random.below(1000) as u32,
            // As many digits as any other number of digits
            _ => self.random.next() as u32 >> self.random.below(32),
        }
    }

    /// A text, as its length and its bytes.
    fn text(&mut self, bytes: &mut Vec<u8>) {
        let len = self.random.below(self.text_len + 1);
        let text = match self.random.below(6) {
            0 => Vec::new(),
            1 => self.letters(len, b"::ab"),
            2 => self.random.text(len, &[1, 2, 3, 4]),
            3 if self.one_in(8) => self.random.text(16 * len, &[1, 1, 1, 2]),
            _ => self.letters(len, b"abcdefghijklmnopqrstuvwxyz"),
        };
        bytes.extend((text.len() as u32).to_le_bytes());
        bytes.extend(text);
    }

    /// A text that is likely to have colons.
    fn name(&mut self, bytes: &mut Vec<u8>) {
        if self.one_in(3) {
            return self.text(bytes);
        }
        let len = self.random.below(self.text_len + 1);
        bytes.extend((len as u32).to_le_bytes());
        bytes.extend(self.letters(len, b"::ab"));
    }

    fn letters(&mut self, len: usize, letters: &[u8]) -> Vec<u8> {
        (0..len).map(|_| letters[self.random.below(letters.len())]).collect()
    }

    /// A damaged copy of what `make` gives. The damage to a section is done to one of its payloads or to the whole.
    pub fn damaged(&mut self, what: What) -> Vec<u8> {
        if what != What::Section {
            return self.damaged_alone(what);
        }
        let mut payloads = self.payloads();
        if self.one_in(2) {
            let payload = self.damaged_alone(What::Payload);
            if !payload.is_empty() {
                payloads.insert(self.random.below(payloads.len() + 1), payload);
            }
            return self.frame(&payloads);
        }
        let (mut section, other) = (self.frame(&payloads), self.make(what));
        self.damage(what, &mut section, &other);
        section
    }

    fn damaged_alone(&mut self, what: What) -> Vec<u8> {
        let (mut bytes, other) = (self.make(what), self.make(what));
        if what == What::Payload && self.one_in(8) {
            self.any_declared = true;
            bytes = self.entity(CUSTOM_SQL);
            self.any_declared = false;
            if self.one_in(2) {
                return bytes;
            }
        }
        for _ in 0..=self.random.below(8) / 7 {
            self.damage(what, &mut bytes, &other);
        }
        bytes
    }

    fn damage(&mut self, what: What, bytes: &mut Vec<u8>, other: &[u8]) {
        let mut whole = Reading::default();
        let _ = whole.read(what, bytes);
        let len = bytes.len();
        let at = self.random.below(len.max(1));
        match self.random.below(10) {
            _ if len == 0 => bytes.push(self.random.next() as u8),
            0 | 1 => {
                for _ in 0..=self.random.below(3) {
                    let at = self.random.below(len);
                    bytes[at] = self.byte();
                }
            }
            2 => {
                let byte = self.byte();
                bytes.splice(at..at, std::iter::repeat_n(byte, 1 + self.random.below(5)));
            }
            3 => drop(bytes.drain(at..(at + 1 + self.random.below(5)).min(len))),
            4 => bytes.truncate(at),
            5 if len >= 4 => self.alter(bytes, at.min(len - 4)),
            6 => {
                let from = self.random.below(other.len() + 1);
                bytes.truncate(at);
                bytes.extend(&other[from..]);
            }
            7 if !whole.entries.is_empty() => {
                let entry = whole.entries[self.random.below(whole.entries.len())];
                self.alter(bytes, entry);
            }
            _ if whole.rows.is_empty() => bytes[at] = self.byte(),
            _ => {
                let row = whole.rows[self.random.below(whole.rows.len())];
                self.damage_leaf(row, bytes);
            }
        }
    }

    /// Damages the leaf of a row.
    fn damage_leaf(&mut self, row: Row, bytes: &mut [u8]) {
        let (offset, value) = (row.offset as usize, row.value as usize);
        match row.sort {
            Sort::Text if value > 0 && self.one_in(2) => bytes[offset + self.random.below(value)] = self.byte(),
            Sort::Text => self.alter(bytes, offset - 4),
            Sort::Number | Sort::Count => self.alter(bytes, offset),
            _ => {
                let most = [3, 7, 20][self.random.below(3)];
                bytes[offset] = self.random.below(most) as u8;
            }
        }
    }

    /// Alters the number in the four bytes from an offset on.
    fn alter(&mut self, bytes: &mut [u8], at: usize) {
        let number = self.other(four(bytes, at));
        bytes[at..at + 4].copy_from_slice(&number.to_le_bytes());
    }

    /// Another number, near that one or not.
    fn other(&mut self, number: u32) -> u32 {
        match self.random.below(6) {
            0 => number.wrapping_add(1),
            1 => number.wrapping_sub(1),
            2 => number.wrapping_add(1 + self.random.below(8) as u32),
            3 => self.random.below(20) as u32,
            4 => self.random.next() as u32 >> self.random.below(32),
            _ => self.number(),
        }
    }

    /// Damages the rows that a writer is given; `other` are some of something else.
    pub fn damage_rows(&mut self, rows: &mut Vec<u32>, other: &[u32]) {
        let count = rows.len() / ROW_WIDTH;
        let at = self.random.below(count.max(1)) * ROW_WIDTH;
        match self.random.below(12) {
            _ if count == 0 => rows.extend(other),
            // A number of a row: of any; of a text, which may still be one; of a kind
            0..3 => {
                let number = at + self.random.below(ROW_WIDTH);
                rows[number] = self.other(rows[number]);
            }
            3 => {
                let text = self.row_of(Sort::Text, rows);
                rows[text + 1] = self.other(rows[text + 1]);
            }
            4 => {
                let kind = self.row_of(Sort::Kind, rows);
                rows[kind + 2] = self.random.below(12) as u32;
            }
            // A row that is missing, or there twice
            5 => drop(rows.drain(at..at + ROW_WIDTH)),
            6 => {
                let row = rows[at..at + ROW_WIDTH].to_vec();
                rows.splice(at..at, row);
            }
            // A text's row elsewhere, which may be in the place of another text
            7 => {
                let (one, two) = (self.row_of(Sort::Text, rows), self.row_of(Sort::Text, rows));
                (0..ROW_WIDTH).for_each(|number| rows.swap(one + number, two + number));
            }
            8 => {
                let text = self.row_of(Sort::Text, rows);
                let row: Vec<u32> = rows.drain(text..text + ROW_WIDTH).collect();
                let to = self.random.below(count) * ROW_WIDTH;
                rows.splice(to..to, row);
            }
            // An end that is missing, or that of other rows
            9 => rows.truncate(self.random.below(rows.len())),
            10 => {
                let from = self.random.below(other.len() / ROW_WIDTH + 1) * ROW_WIDTH;
                rows.truncate([at, rows.len()][self.random.below(2)]);
                rows.extend(&other[from..]);
            }
            _ => self.damage_result(rows),
        }
    }

    /// Makes another result of one that is a mapping As: another mapping, or an error.
    fn damage_result(&mut self, rows: &mut Vec<u32>) {
        let (tag, text) = (Sort::Tag.number(), Sort::Text.number());
        let is_as = |rows: &[u32], at: usize| {
            let row = |i: usize| &rows[(at + i) * ROW_WIDTH..(at + i + 1) * ROW_WIDTH];
            [row(0)[0], row(0)[2], row(1)[0], row(1)[2], row(2)[0]] == [tag, 1, tag, 1, text]
        };
        let count = rows.len() / ROW_WIDTH;
        let found: Vec<usize> = (0..count.saturating_sub(2)).filter(|&at| is_as(rows, at)).collect();
        if found.is_empty() {
            return;
        }
        let start = found[self.random.below(found.len())] * ROW_WIDTH;
        let tags: &[u32] = [[1, 4].as_slice(), &[1, 5], &[1, 2, 4], &[2, 1], &[2, 6]][self.random.below(5)];
        rows.splice(
            start..start + 3 * ROW_WIDTH,
            tags.iter().flat_map(|&value| Row::new(Sort::Tag, 0, value).numbers()),
        );
    }

    /// Where a row of that sort begins, or another if none is found.
    fn row_of(&mut self, sort: Sort, rows: &[u32]) -> usize {
        let start = self.random.below(rows.len() / ROW_WIDTH);
        let found = rows.chunks_exact(ROW_WIDTH).skip(start).position(|row| row[0] == sort.number());
        (start + found.unwrap_or(0)) * ROW_WIDTH
    }

    /// A byte that is likely to matter.
    fn byte(&mut self) -> u8 {
        match self.random.below(3) {
            0 => self.random.below(20) as u8,
            1 => [0x7f, 0x80, 0xbf, 0xc0, 0xc2, 0xe0, 0xed, 0xf0, 0xf4, 0xff][self.random.below(10)],
            _ => self.random.next() as u8,
        }
    }
}
