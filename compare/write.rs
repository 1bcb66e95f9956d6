//! The writers. First sections, written back from the rows that were read: the time of the writing beside that of the reading.
//! Then metadata records of some 16 MiB: the bytes that are written, and the speed beside that of copying these bytes and checking
//! their texts. Built and run by `compare/write [--sections] [SEED]`.
mod common;
mod sections;

use common::{median, Random};
use pgrxsc::{read_section, section_len, table_len, write_section, Refusal, Row, Sort, LIMIT, ROW_WIDTH};
use sections::{entries, function, schema, MIB};
use std::hint::black_box;
use std::time::Instant;

/// A record: its rows, their texts, and its bytes by the layouts (docs/FORMAT.md, Metadata and mappings).
#[derive(Default)]
struct Record {
    rows: Vec<u32>,
    text: Vec<u8>,
    bytes: Vec<u8>,
    texts: Vec<(usize, usize)>,
}

impl Record {
    /// A record without a resolution, of a Skip as argument and the return value that follows.
    fn new() -> Self {
        let mut record = Record::default();
        record.byte(Sort::Flag, 0);
        record.byte(Sort::Tag, 1);
        record.byte(Sort::Tag, 5);
        record.byte(Sort::Tag, 1);
        record
    }

    /// A record that returns a table of `count` columns.
    fn table(count: usize) -> Self {
        let mut record = Record::new();
        record.byte(Sort::Tag, 3);
        record.four(Sort::Count, count as u32);
        record
    }

    fn byte(&mut self, sort: Sort, value: u8) {
        self.rows.extend(Row::new(sort, 0, value.into()).numbers());
        self.bytes.push(value);
    }

    fn four(&mut self, sort: Sort, value: u32) {
        self.rows.extend(Row::new(sort, 0, value).numbers());
        self.bytes.extend(value.to_le_bytes());
    }

    /// A mapping As with a text.
    fn sql_as(&mut self, text: &[u8]) {
        self.byte(Sort::Tag, 1);
        self.rows.extend(Row::new(Sort::Text, self.text.len() as u32, text.len() as u32).numbers());
        self.bytes.extend((text.len() as u32).to_le_bytes());
        self.bytes.extend(text);
        self.texts.push((self.text.len(), text.len()));
        self.text.extend(text);
    }

    fn write(&self, dest: &mut [u8]) -> Result<usize, Refusal> {
        pgrxsc::write_metadata(&self.rows, &self.text, dest)
    }

    fn check(&self, check: fn(&[u8]) -> bool) -> bool {
        self.texts.iter().all(|&(at, len)| check(&self.text[at..at + len]))
    }
}

fn std(text: &[u8]) -> bool {
    std::str::from_utf8(text).is_ok()
}

/// A record that returns one text.
fn one(text: Vec<u8>) -> Record {
    let mut record = Record::new();
    record.byte(Sort::Tag, 1);
    record.sql_as(&text);
    record
}

/// A table of as many columns as fit, each of `size` bytes and made by `column`.
fn columns(size: usize, mut column: impl FnMut(&mut Record)) -> Record {
    let count = (LIMIT - 9) / size;
    let mut record = Record::table(count);
    (0..count).for_each(|_| column(&mut record));
    record
}

fn milliseconds(work: impl FnOnce()) -> f64 {
    let start = Instant::now();
    work();
    start.elapsed().as_secs_f64() * 1e3
}

/// The bytes that are written, and those after them; then the times by turns: the medians of 31 turns, and of the share in each.
fn race(name: &str, record: Record) {
    let len = record.bytes.len();
    let mut dest = vec![0xaa; LIMIT + 16];
    assert_eq!(record.write(&mut dest), Ok(len), "{name}: the answer");
    assert!(dest[..len] == record.bytes, "{name}: the bytes");
    assert!(dest[len..].iter().all(|&byte| byte == 0xaa), "{name}: the bytes after");

    let mut copy = vec![1; LIMIT + 16];
    let mut times = [const { Vec::new() }; 5];
    for _ in 0..31 {
        times[0].push(milliseconds(|| assert_eq!(record.write(&mut dest), Ok(len))));
        times[1].push(milliseconds(|| black_box(&mut copy)[..len].copy_from_slice(black_box(&record.bytes))));
        times[2].push(milliseconds(|| assert!(record.check(pgrxsc::is_text))));
        times[3].push(milliseconds(|| assert!(record.check(std))));
        times[4].push(milliseconds(|| {
            for _ in 0..2 {
                black_box(black_box(&record.rows).iter().fold(0, |sum: u32, &n| sum ^ n));
            }
        }));
    }
    let share = |turn: usize| (times[1][turn] + times[2][turn].min(times[3][turn])) / times[0][turn];
    let share = median((0..31).map(share).collect());
    let [write, copy, our_check, std_check, rows] = times.map(median);
    println!(
        "{name:32} {:9} {write:8.2} {copy:8.2} {our_check:8.2} {std_check:8.2} {rows:8.2} {share:8.2}",
        record.rows.len() / ROW_WIDTH
    );
}

/// A section that is read, and written back from its rows: its bytes, and those after them; then the times by turns of one reading
/// and one writing, or of as many as have 1 MiB: the medians of 31 turns, and of the turns' ratios. The length alone comes last.
fn back(name: &str, section: &[u8]) {
    let len = section.len();
    let mut table = vec![0; table_len(section)];
    let reading = read_section(section, &mut table).expect("accepted");
    let (count, rows) = (reading.entities().len(), reading.numbers().to_vec());
    table.truncate(rows.len());
    let mut dest = vec![0xaa; len + 16];
    assert_eq!(section_len(&rows, section), Ok(len), "{name}: the length");
    assert_eq!(write_section(&rows, section, &mut dest), Ok(len), "{name}: the answer");
    assert!(dest[..len] == *section, "{name}: the bytes");
    assert!(dest[len..].iter().all(|&byte| byte == 0xaa), "{name}: the bytes after");

    let turns = (MIB / len).max(1);
    let each = |work: &mut dyn FnMut()| milliseconds(|| (0..turns).for_each(|_| work())) / turns as f64;
    let mut times = [const { Vec::new() }; 3];
    for _ in 0..31 {
        times[0].push(each(&mut || assert!(read_section(black_box(section), &mut table).is_ok())));
        times[1].push(each(&mut || assert_eq!(write_section(black_box(&rows), section, &mut dest), Ok(len))));
        times[2].push(each(&mut || assert_eq!(section_len(black_box(&rows), section), Ok(len))));
    }
    let ratio = median((0..31).map(|turn| times[1][turn] / times[0][turn]).collect());
    let [read, write, measure] = times.map(median);
    println!(
        "{name:32} {len:9} {count:8} {:9} {read:8.3} {write:8.3} {ratio:8.2} {measure:8.3}",
        rows.len() / ROW_WIDTH
    );
}

fn main() {
    let (sections, words): (Vec<_>, Vec<_>) = std::env::args().skip(1).partition(|word| word == "--sections");
    let seed = words.first().map_or(3629, |seed| seed.parse().expect("a number as seed"));
    let mut random = Random(seed | 1);
    println!("Milliseconds. The ratio: of the time of the writing to that of the reading, which is to be 2 at most.\n");
    println!(
        "{:32} {:>9} {:>8} {:>9} {:>8} {:>8} {:>8} {:>8}",
        "a section of", "bytes", "entities", "rows", "read", "write", "ratio", "length"
    );
    back("functions, 64 KiB", &entries(MIB / 16, function));
    back("functions, 1 MiB", &entries(MIB, function));
    back("functions, 8 MiB", &entries(8 * MIB, function));
    back("empty schemas, 8 MiB", &entries(8 * MIB, |_| schema(b"")));
    if !sections.is_empty() {
        return;
    }
    println!(
        "\nMilliseconds. The share: of the speed of copying and of the faster check, which is to be 0.5 or more.\n"
    );
    println!(
        "{:32} {:>9} {:>8} {:>8} {:>8} {:>8} {:>8} {:>8}",
        "a record of", "rows", "write", "copy", "check", "std's", "rows x 2", "share"
    );
    race("one text of ASCII", one(random.text(LIMIT - 10, &[1])));
    let mut long = random.text(LIMIT - 12, &[3]);
    long.truncate((LIMIT - 12) / 3 * 3);
    race("one text of 3 bytes each", one(long));
    for n in [4096, 256, 64, 32, 24, 20, 16, 12, 8, 4, 0] {
        let text = random.text(n, &[1]);
        race(&format!("texts of {n} bytes, ASCII"), columns(5 + n, |record| record.sql_as(&text)));
    }
    let mut lengths = Vec::new();
    let mut total = 9;
    while total + 35 <= LIMIT {
        let n = 4 + random.below(27);
        total += 5 + n;
        lengths.push(n);
    }
    let mut mixed = Record::table(lengths.len());
    lengths.iter().for_each(|&n| mixed.sql_as(&random.text(n, &[1])));
    race("texts of 4 to 30 bytes, ASCII", mixed);
    let text = random.text(24, &[3]);
    race("texts of 24 bytes, 3 bytes each", columns(5 + 24, |record| record.sql_as(&text)));
    race(
        "Numeric alone",
        columns(11, |record| {
            record.byte(Sort::Tag, 3);
            record.byte(Sort::Flag, 1);
            record.four(Sort::Number, 10);
            record.byte(Sort::Flag, 1);
            record.four(Sort::Number, 2);
        }),
    );
    race("Skip alone", columns(1, |record| record.byte(Sort::Tag, 5)));
}
