//! Directories: their records, and which entity holds a position.

mod common;

use common::{custom_sql, entry, function, hex, rows, schema, sentinel, trigger};
use pgrxsc::builder::{
    Aggregate, Builder, CustomSql, Function, PostgresEnum, PostgresHash, PostgresOrd, PostgresType,
    Schema, Trigger,
};
use pgrxsc::{
    entity_at, read_directory, read_payload, read_section, records_len, table_len, Directory,
    EntityKind, Record, Refusal, RefusalKind, Sort, Table, LIMIT, ROW_WIDTH,
};

/// Sections with their directories, by a model that was written apart from this project.
const DIRECTORY: &str = include_str!("../../compare/cases/directory.txt");

const THIRTEEN: Refusal = Refusal::new(13, 0);
const TWENTY_ONE: Refusal = Refusal::new(21, 0);

/// What a list holds before.
const SEVEN: Record = Record {
    kind: 7,
    start: 7,
    length: 7,
    first_row: 7,
    row_count: 7,
};

fn record([kind, start, length, first_row, row_count]: [u32; 5]) -> Record {
    Record {
        kind,
        start,
        length,
        first_row,
        row_count,
    }
}

/// A section that is made part by part, beside what is expected of it.
#[derive(Default)]
struct Made {
    section: Vec<u8>,
    records: Vec<Record>,
    /// For each byte the index of its entity.
    holders: Vec<Option<usize>>,
    rows: u32,
}

impl Made {
    fn entity(mut self, payload: &[u8]) -> Made {
        let mut table = vec![0; table_len(payload)];
        let rows = read_payload(payload, &mut table).unwrap().rows().len() as u32;
        let length = 4 + payload.len();
        self.records.push(record([
            payload[0].into(),
            self.section.len() as u32,
            length as u32,
            self.rows,
            rows,
        ]));
        self.rows += rows;
        let index = self.records.len() - 1;
        self.holders
            .resize(self.holders.len() + length, Some(index));
        self.section.extend(entry(payload));
        self
    }

    fn others(mut self, bytes: &[u8]) -> Made {
        self.section.extend(bytes);
        self.holders.resize(self.section.len(), None);
        self
    }

    fn sentinel(self) -> Made {
        self.others(&sentinel())
    }

    fn padding(self, len: usize) -> Made {
        self.others(&vec![0; len])
    }

    fn numbers(&self) -> usize {
        self.rows as usize * ROW_WIDTH
    }
}

/// Five entities of four kinds, with sentinels before, between and after them, and padding.
fn several() -> Made {
    Made::default()
        .sentinel()
        .entity(&schema("m", "one", "f.rs", 7))
        .entity(&function("a::b", &[2, 2]))
        .sentinel()
        .sentinel()
        .entity(&trigger("t"))
        .entity(&custom_sql(&[1, 1, 0, 0, 0, 0]))
        .sentinel()
        .entity(&schema("", "", "", 0))
        .sentinel()
        .padding(6)
}

/// Sections of all shapes.
fn all_made() -> Vec<Made> {
    let small = schema("", "", "", 0);
    let mut all = vec![
        Made::default(),
        Made::default().sentinel(),
        Made::default().sentinel().sentinel().padding(3),
        Made::default().entity(&small),
        Made::default().entity(&small).sentinel(),
        Made::default().sentinel().entity(&small),
        Made::default().entity(&small).entity(&small),
        Made::default()
            .entity(&small)
            .sentinel()
            .entity(&trigger("t")),
        several(),
    ];
    for len in 1..=9 {
        all.push(Made::default().padding(len));
        all.push(Made::default().entity(&trigger("")).padding(len));
    }
    all
}

/// Sections that get refusals 1 to 12, each of them but the first after an entity that is good.
fn refused() -> Vec<(Vec<u8>, Refusal)> {
    let good = entry(&schema("m", "n", "f", 1));
    let flag = {
        let mut payload = trigger("");
        *payload.last_mut().unwrap() = 2;
        entry(&payload)
    };
    let bad = [
        (2, hex("000001")),
        (3, hex("00000000 05")),
        (4, hex("02000000 01")),
        (5, entry(&[1, 4, 0, 0])),
        (6, flag),
        (7, entry(&[1, 1, 0, 0, 0, 0xff])),
        (8, entry(&[10])),
        (9, entry(&function("", &[19]))),
        (10, entry(&custom_sql(&[1, 5]))),
        (11, entry(&custom_sql(&[2, 1]))),
        (12, entry(&[schema("", "", "", 0), vec![0]].concat())),
    ];
    let mut all = vec![(vec![0; LIMIT + 1], Refusal::new(1, 0))];
    for (number, bytes) in bad {
        let section = [&good[..], &bytes].concat();
        let refusal = Table::new().read_section(&section).unwrap_err();
        assert_eq!(refusal.number(), number);
        all.push((section, refusal));
    }
    all
}

#[test]
fn no_entities() {
    for section in ["", "00", "000000", "00000000", "0000000000"] {
        let section = hex(section);
        let directory = read_directory(&section, &mut [], &mut []).unwrap();
        assert!(directory.is_empty());
        assert_eq!(directory.reading().rows().len(), 0);
    }
    let section = [sentinel(), sentinel(), vec![0; 5]].concat();
    let (mut table, mut records) = ([7; 4], [SEVEN; 2]);
    let directory = read_directory(&section, &mut table, &mut records).unwrap();
    assert_eq!(directory.records(), []);
    assert_eq!(directory.at(4), None);
    assert_eq!((table, records), ([0; 4], [SEVEN; 2]));
}

#[test]
fn one_schema() {
    let section = entry(&schema("", "", "", 0));
    assert_eq!(section.len(), 21);
    let mut table = vec![7; table_len(&section)];
    let mut records = [SEVEN];
    let directory = read_directory(&section, &mut table, &mut records).unwrap();
    assert_eq!(
        rows(directory.reading()),
        [(1, 4, 1), (6, 9, 0), (6, 13, 0), (6, 17, 0), (4, 17, 0)]
    );
    assert_eq!(records, [record([1, 0, 21, 0, 5])]);
}

#[test]
fn several_entities() {
    let made = several();
    let mut table = Table::new();
    let directory = table.read_directory(&made.section).unwrap();
    // A sentinel's entry has 13 bytes, and those of the entities 29, 50, 28, 54 and 21.
    let expected = [
        [1, 13, 29, 0, 5],
        [3, 42, 50, 5, 18],
        [9, 118, 28, 23, 8],
        [2, 146, 54, 31, 17],
        [1, 213, 21, 48, 5],
    ];
    assert_eq!(directory.records(), expected.map(record));
    assert_eq!(directory.records(), made.records);
    assert_eq!(directory.reading().rows().len(), 53);
}

#[test]
fn records_of_all_shapes() {
    let mut table = Table::new();
    for made in all_made() {
        let directory = table.read_directory(&made.section).unwrap();
        assert_eq!(directory.records(), made.records);
        assert_eq!(directory.reading().bytes(), made.section);
    }
}

#[test]
fn all_kinds() {
    let mut builder = Builder::new();
    builder
        .add(Schema::default())
        .add(CustomSql::default())
        .add(Function::default())
        .add(PostgresType::default())
        .add(PostgresEnum::default())
        .add(PostgresOrd::default())
        .add(PostgresHash::default())
        .add(Aggregate::default())
        .add(Trigger::default());
    let section = builder.to_section().unwrap();
    let mut table = Table::new();
    let directory = table.read_directory(&section).unwrap();
    assert_eq!(directory.len(), 9);
    let (mut start, mut row) = (0, 0);
    for (record, number) in directory.iter().zip(1..) {
        assert_eq!(record.kind, number);
        assert_eq!(record.entity_kind(), EntityKind::from_number(number));
        assert_eq!((record.start, record.first_row), (start, row));
        start += record.length;
        row += record.row_count;
    }
    assert_eq!(start as usize, section.len());
    assert_eq!(row as usize, directory.reading().rows().len());
}

#[test]
fn lists_too_small() {
    let made = several();
    for len in 0..made.records.len() {
        let mut table = vec![7; made.numbers() + 5];
        let mut records = vec![SEVEN; len];
        let refusal = read_directory(&made.section, &mut table, &mut records).unwrap_err();
        assert_eq!(refusal, TWENTY_ONE, "{len}");
        assert_eq!(refusal.kind(), Some(RefusalKind::ListTooSmall));
        assert_eq!(table, vec![0; made.numbers() + 5]);
        assert_eq!(records, vec![SEVEN; len]);
    }
}

#[test]
fn lists_just_large_enough_and_more() {
    let made = several();
    let count = made.records.len();
    for len in count..count + 4 {
        let mut table = vec![7; made.numbers()];
        let mut records = vec![SEVEN; len];
        let directory = read_directory(&made.section, &mut table, &mut records).unwrap();
        assert_eq!(directory.len(), count);
        assert_eq!(directory.records(), made.records);
        assert_eq!(records[..count], made.records);
        assert_eq!(records[count..], vec![SEVEN; len - count]);
    }
}

/// 13 comes before 21, whatever the list.
#[test]
fn tables_too_small() {
    let made = several();
    let numbers = made.numbers();
    for len in [0, 1, ROW_WIDTH, numbers - ROW_WIDTH, numbers - 1, numbers] {
        for list in [0, made.records.len() - 1, made.records.len(), 9] {
            let mut table = vec![7; len];
            let mut records = vec![SEVEN; list];
            let refusal = read_directory(&made.section, &mut table, &mut records).err();
            if len == numbers && list >= made.records.len() {
                assert_eq!(refusal, None);
                continue;
            }
            let expected = if len < numbers { THIRTEEN } else { TWENTY_ONE };
            assert_eq!(refusal, Some(expected), "{len} {list}");
            assert_eq!(table, vec![0; len]);
            assert_eq!(records, vec![SEVEN; list]);
        }
    }
}

/// The answer and the table are those of the plain reading, where the list is large enough.
#[test]
fn the_plain_reading() {
    for made in all_made() {
        let numbers = made.numbers();
        for len in [
            0,
            numbers.saturating_sub(1),
            numbers,
            numbers + 1,
            numbers + 7,
        ] {
            let (mut plain, mut table) = (vec![7; len], vec![8; len]);
            let mut records = vec![SEVEN; made.records.len()];
            let expected = read_section(&made.section, &mut plain);
            let expected = expected.map(|reading| (reading.entities().len(), rows(reading)));
            let answer = read_directory(&made.section, &mut table, &mut records);
            let answer = answer.map(|directory| (directory.len(), rows(directory.reading())));
            assert_eq!(answer, expected);
            assert_eq!(table, plain);
        }
    }
}

#[test]
fn other_refusals() {
    for (section, refusal) in refused() {
        for (len, list) in [(0, 0), (5 * ROW_WIDTH, 1), (100 * ROW_WIDTH, 0), (400, 5)] {
            let mut table = vec![7; len];
            let mut records = vec![SEVEN; list];
            let answer = read_directory(&section, &mut table, &mut records);
            assert_eq!(answer.unwrap_err(), refusal);
            assert_eq!(table, vec![0; len]);
            assert_eq!(records, vec![SEVEN; list]);
        }
        assert_eq!(Table::new().read_directory(&section).unwrap_err(), refusal);
        for position in [0, 4, 30, u64::MAX] {
            assert_eq!(entity_at(&section, position), Err(refusal));
        }
    }
}

/// Positions of a section and past its end.
fn positions(section: &[u8]) -> impl Iterator<Item = u64> {
    let end = section.len() as u64;
    let past = [LIMIT as u64, 1 << 31, u64::MAX - 1, u64::MAX];
    // As 32-bit numbers, these would be positions of the section.
    let wrapped = (0..end).step_by(7).map(|position| position + (1 << 32));
    (0..end + 30).chain(past).chain(wrapped)
}

#[test]
fn every_position() {
    let mut table = Table::new();
    for made in all_made() {
        let directory = table.read_directory(&made.section).unwrap();
        for position in positions(&made.section) {
            let held = usize::try_from(position).unwrap();
            let expected = made.holders.get(held).copied().flatten();
            let answer = entity_at(&made.section, position);
            assert_eq!(answer, Ok(expected), "{position}");
            let expected = expected.map(|index| (index, &made.records[index]));
            assert_eq!(directory.at(position), expected, "{position}");
            let holding = directory.iter().filter(|record| record.contains(position));
            assert!(holding.eq(expected.map(|(_, record)| record)), "{position}");
        }
    }
}

/// The first and the last byte of an entry, and those beside them.
#[test]
fn ends_of_entries() {
    let made = several();
    let index = |position| entity_at(&made.section, position).unwrap();
    // The first sentinel.
    assert_eq!([0, 4, 12].map(index), [None; 3]);
    // The length, the kind and the last byte of the first entity; the second one follows.
    assert_eq!([13, 16, 17, 41].map(index), [Some(0); 4]);
    assert_eq!([42, 45, 91].map(index), [Some(1); 3]);
    // Two sentinels, and two entities.
    assert_eq!([92, 104, 105, 117].map(index), [None; 4]);
    assert_eq!([118, 145, 146, 199].map(index), [2, 2, 3, 3].map(Some));
    // A sentinel, an entity and a sentinel.
    assert_eq!([200, 212, 234, 246].map(index), [None; 4]);
    assert_eq!([213, 233].map(index), [Some(4); 2]);
    // The padding, and what is past the end.
    assert_eq!(made.section.len(), 253);
    assert_eq!([247, 252, 253, 254, u64::MAX].map(index), [None; 5]);
}

#[test]
fn records_and_rows() {
    let made = several();
    let mut table = Table::new();
    let directory = table.read_directory(&made.section).unwrap();
    let reading = directory.reading();
    let mut next = 0;
    for record in &directory {
        let range = record.rows();
        assert_eq!(range.start, next);
        next = range.end;
        let mut rows = reading.rows().skip(range.start).take(range.len());
        let first = rows.next().unwrap();
        assert_eq!(first.sort, Sort::Kind);
        assert_eq!((first.offset, first.value), (record.start + 4, record.kind));
        // Where an entry ends with an empty text, that text's offset is the end.
        let entry_end = record.start + record.length;
        assert!(rows.all(|row| row.sort != Sort::Kind && row.offset <= entry_end));
        // The entry is a length and a payload that can be read alone.
        let bytes = &made.section[record.entry()];
        assert_eq!(bytes, entry(&bytes[4..]));
        let mut alone = Table::new();
        let alone = alone.read_payload(&bytes[4..]).unwrap();
        assert_eq!(alone.rows().len(), range.len());
    }
    assert_eq!(next, reading.rows().len());
}

#[test]
fn entities_by_index() {
    let made = several();
    let mut table = Table::new();
    let directory = table.read_directory(&made.section).unwrap();
    let entities = directory.reading().entities();
    assert_eq!(entities.len(), directory.len());
    for (index, expected) in entities.enumerate() {
        let entity = directory.entity(index).unwrap();
        assert_eq!(entity.kind(), expected.kind());
        assert_eq!(entity.offset(), expected.offset());
        assert_eq!(entity.numbers(), expected.numbers());
        assert!(entity.texts().eq(expected.texts()));
        let record = directory.get(index).unwrap();
        assert_eq!(record.entity_kind(), Some(entity.kind()));
        assert_eq!(record.start + 4, entity.offset());
        assert_eq!(record.rows().len(), entity.rows().len());
    }
    for index in [directory.len(), directory.len() + 1, usize::MAX] {
        assert!(directory.entity(index).is_none());
        assert_eq!(directory.get(index), None);
    }
}

#[test]
fn records_one_after_another() {
    let made = several();
    let mut table = Table::new();
    let directory = table.read_directory(&made.section).unwrap();
    let mut records = Vec::new();
    for record in &directory {
        records.push(*record);
    }
    assert_eq!(records, made.records);
    assert!(directory.iter().eq(directory.records()));
    assert_eq!(directory.iter().len(), directory.len());
    assert_eq!(directory.iter().next_back(), directory.get(4));
    assert!(!directory.is_empty());
}

#[test]
fn records_alone() {
    let none = Record::default();
    assert_eq!(none, record([0; 5]));
    assert_eq!(none.entity_kind(), None);
    assert_eq!((none.entry(), none.rows()), (0..0, 0..0));
    assert!(!none.contains(0));

    let one = record([3, 10, 5, 2, 4]);
    assert_eq!(one.entity_kind(), Some(EntityKind::Function));
    assert_eq!((one.entry(), one.rows()), (10..15, 2..6));
    assert_eq!(
        [9, 10, 14, 15].map(|position| one.contains(position)),
        [false, true, true, false]
    );

    // No sum wraps.
    let most = record([u32::MAX; 5]);
    let (first, end) = (u32::MAX as usize, 2 * u32::MAX as usize);
    assert_eq!(most.entity_kind(), None);
    assert_eq!((most.entry(), most.rows()), (first..end, first..end));
    assert!(most.contains(1 << 32));
    assert!(!most.contains(0) && !most.contains(u64::MAX));
}

#[test]
fn a_table_is_used_again() {
    let (large, small) = (several(), Made::default().entity(&trigger("t")));
    let mut table = Table::new();
    for _ in 0..2 {
        let directory = table.read_directory(&large.section).unwrap();
        assert_eq!(directory.records(), large.records);
        let directory = table.read_directory(&small.section).unwrap();
        assert_eq!(directory.records(), small.records);
        assert_eq!(directory.at(100), None);
        let refusal = table.read_directory(&[1, 0, 0, 0, 10]).unwrap_err();
        assert_eq!(refusal, Refusal::new(8, 4));
        assert!(table.read_directory(&[]).unwrap().is_empty());
        let reading = table.read_section(&large.section).unwrap();
        assert_eq!(reading.entities().len(), large.records.len());
    }
}

#[test]
fn a_table_grows() {
    // Nearly as many rows as bytes.
    let made = Made::default()
        .entity(&function("", &vec![2; 100_000]))
        .entity(&schema("", "", "", 0))
        .entity(&function("", &vec![2; 200_000]));
    let mut table = Table::new();
    let directory = table.read_directory(&made.section).unwrap();
    assert_eq!(directory.records(), made.records);
    assert_eq!(directory.at(100_044), Some((1, &made.records[1])));
}

#[test]
fn as_many_as_a_section_can_have() {
    let smallest = entry(&schema("", "", "", 0));
    let most = LIMIT / smallest.len();
    let section = smallest.repeat(most);
    assert_eq!(records_len(&section), most);
    let mut table = vec![0; most * 5 * ROW_WIDTH];
    let mut records = vec![SEVEN; most];
    let refusal = read_directory(&section, &mut table, &mut records[1..]).unwrap_err();
    assert_eq!(refusal, TWENTY_ONE);
    assert!(records.iter().all(|record| *record == SEVEN));
    let directory = read_directory(&section, &mut table, &mut records).unwrap();
    assert_eq!(directory.len(), most);
    for (record, index) in directory.iter().zip(0..) {
        assert_eq!(*record, self::record([1, 21 * index, 21, 5 * index, 5]));
    }
    for position in (0..section.len()).step_by(997) {
        let (index, _) = directory.at(position as u64).unwrap();
        assert_eq!(index, position / 21);
    }
    let last = section.len() as u64 - 1;
    assert_eq!(entity_at(&section, last), Ok(Some(most - 1)));
    assert_eq!(entity_at(&section, last + 1), Ok(None));
}

#[test]
fn length_at_most() {
    assert_eq!(records_len(&[]), 0);
    assert_eq!(
        [20, 21, 41, 42].map(|len| records_len(&vec![0; len])),
        [0, 1, 1, 2]
    );
    assert_eq!(records_len(&vec![0; LIMIT + 1]), LIMIT / 21);
    for made in all_made() {
        assert!(made.records.len() <= records_len(&made.section));
    }
}

#[test]
fn padding_alone() {
    let section = vec![0; LIMIT];
    assert_eq!(entity_at(&section, 0), Ok(None));
    assert_eq!(entity_at(&section, LIMIT as u64), Ok(None));
    assert!(read_directory(&section, &mut [], &mut []).is_ok());
}

#[test]
fn debug_shows_counts() {
    let made = several();
    let mut table = Table::new();
    let directory = table.read_directory(&made.section).unwrap();
    assert_eq!(
        format!("{directory:?}"),
        "Directory { bytes: 253, entities: 5, rows: 53 }"
    );
}

#[test]
fn directories_can_be_sent() {
    fn sent<T: Send + Sync + Copy>() {}
    sent::<Directory>();
    sent::<Record>();
}

/// The numbers of a field, of which - has none. Between two records stands /.
fn numbers(field: &str) -> Vec<u32> {
    let parts = field.split([',', '/']).filter(|part| *part != "-");
    parts.map(|part| part.parse().unwrap()).collect()
}

/// The lines that begin with D of the answers that were made elsewhere: the sizes of the table and of
/// the list, the section, and the answer. Table and list hold 7 before.
#[test]
fn answers_from_elsewhere() {
    let mut lines = 0;
    for line in DIRECTORY.lines().filter(|line| line.starts_with("D ")) {
        let fields: Vec<_> = line.split(' ').collect();
        let mut table = vec![7; fields[1].parse().unwrap()];
        let mut records = vec![SEVEN; fields[2].parse().unwrap()];
        let section = if fields[3] == "-" {
            Vec::new()
        } else {
            hex(fields[3])
        };
        let answer = read_directory(&section, &mut table, &mut records)
            .map(|directory| (directory.len(), directory.reading().rows().len()));
        let parsed = |k: usize| fields[k].parse::<usize>().unwrap();
        let mut expected_table = vec![0; table.len()];
        let mut expected_records = vec![SEVEN; records.len()];
        if fields[4] == "accept" {
            assert_eq!(answer, Ok((parsed(5), parsed(6))), "{line}");
            let rows = numbers(fields[7]);
            expected_table[..rows.len()].copy_from_slice(&rows);
            for (k, five) in numbers(fields[8]).chunks(5).enumerate() {
                expected_records[k] = record(five.try_into().unwrap());
            }
        } else {
            assert_eq!(
                answer,
                Err(Refusal::new(parsed(5) as u32, parsed(6))),
                "{line}"
            );
        }
        assert_eq!(table, expected_table, "{line}");
        assert_eq!(records, expected_records, "{line}");
        lines += 1;
    }
    assert_eq!(lines, 250);
}
