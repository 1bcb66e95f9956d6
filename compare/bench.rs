//! The reading of a section beside the Rust's `decode_entities`, in one process and by turns; the directory, and what holds a
//! byte, beside that reading; then the time of the path report, on 10,000 entities at most, or with `--paths` on as many as fit
//! a section. Built and run by `compare/bench`.
mod common;
mod exports;
mod sections;

use common::{median, Random};
use exports::{entity_at, read_directory, Record};
use pgrx_sql_entity_graph::section::decode_entities;
use pgrxsc::{path_repeats, read_section, Refusal, LIMIT, ROW_WIDTH};
use sections::{entries, function, schema, Entry, MIB};
use std::hint::black_box;
use std::time::Instant;

const TURNS: usize = 31;

/// How often each path report is made.
const PATH_TURNS: usize = 3;

/// A trigger as the macros write it. It is short, so that 100,000 fit a section.
fn trigger(i: usize) -> Entry {
    let name = format!("note_exercise_{i:06}");
    Entry::default()
        .tag(9)
        .text(name.as_bytes())
        .text(b"src/exercise.rs")
        .number(i as u32)
        .text(b"rehab::exercise")
        .text(format!("rehab::exercise::{name}").as_bytes())
        .tags(&[1, 0]) // to_sql_config
}

/// A trigger with a full_path and no other text. No entry with a full_path is shorter: it has 27 bytes and those of the path.
fn path_alone(path: impl AsRef<[u8]>) -> Entry {
    Entry::default().tag(9).text(b"").text(b"").number(0).text(b"").text(path.as_ref()).tags(&[1, 0])
}

/// An ord or a hash, kind 6 or 7, with no other text than its path.
fn ord_or_hash(kind: u8, path: impl AsRef<[u8]>) -> Entry {
    let named = Entry::default().tag(kind).text(b"").text(b"").number(0);
    named.text(path.as_ref()).text(b"").text(b"").tags(&[1, 0])
}

fn one_text(text: Vec<u8>) -> Vec<u8> {
    let mut section = Vec::new();
    schema(&text).add_to(&mut section);
    section
}

fn milliseconds<T>(work: impl FnOnce() -> T) -> (f64, T) {
    let start = Instant::now();
    let result = work();
    (start.elapsed().as_secs_f64() * 1e3, result)
}

/// The numbers of entities and rows.
fn read(section: &[u8], table: &mut [u32]) -> Result<(usize, usize), Refusal> {
    read_section(section, table).map(|reading| (reading.entities().len(), reading.rows().len()))
}

/// Both on a section by turns of one reading, or of as many as have 1 MiB. What the Rust has made is dropped outside of its time.
/// Returns the median times, ours and the Rust's.
fn race(name: &str, section: &[u8], goal: f64) -> (f64, f64) {
    let entities = decode_entities(section).expect("accepted").len();
    let mut table = vec![0; ROW_WIDTH * section.len()];
    let (count, rows) = read(section, &mut table).expect("accepted");
    assert_eq!(count, entities, "{name}: entities");
    table.truncate(ROW_WIDTH * rows);
    let readings = (MIB / section.len()).max(1);
    let mut our_reading = || {
        let (time, answer) = milliseconds(|| read(black_box(section), &mut table));
        assert_eq!(answer, Ok((count, rows)));
        time
    };
    let their_reading = || {
        let (time, result) = milliseconds(|| decode_entities(black_box(section)));
        assert_eq!(result.unwrap().len(), entities);
        time
    };
    let (mut ours, mut theirs) = (Vec::new(), Vec::new());
    for _ in 0..TURNS {
        ours.push((0..readings).map(|_| our_reading()).sum::<f64>() / readings as f64);
        theirs.push((0..readings).map(|_| their_reading()).sum::<f64>() / readings as f64);
    }
    let ratio = median((0..TURNS).map(|turn| theirs[turn] / ours[turn]).collect());
    let (ours, theirs) = (median(ours), median(theirs));
    println!(
        "{name:32} {:9} {entities:8} {rows:8} {ours:9.3} {theirs:9.3} {:7.2}x {ratio:7.2}x {goal:4.0}x",
        section.len(),
        theirs / ours
    );
    (ours, theirs)
}

/// One section of 16 MiB beside sixteen of 1 MiB, read one after the other, each with bytes and a table of its own: the caches
/// have as much to hold for both.
fn growth() {
    let large = entries(16 * MIB, function);
    let small: Vec<Vec<u8>> = (0..16).map(|_| entries(MIB, function)).collect();
    let mut large_table = vec![0; large.len()];
    let mut small_tables = vec![vec![0; MIB]; 16];
    let mut times = [const { Vec::new() }; 4];
    for _ in 0..TURNS {
        let (time, answer) = milliseconds(|| read(&large, &mut large_table));
        assert!(answer.is_ok());
        times[0].push(time);
        let pairs = small.iter().zip(&mut small_tables);
        times[1].push(pairs.map(|(bytes, table)| milliseconds(|| read(bytes, table)).0).sum());
        times[2].push(milliseconds(|| decode_entities(&large)).0);
        times[3].push(small.iter().map(|bytes| milliseconds(|| decode_entities(bytes)).0).sum());
    }
    let [one, sixteen, their_one, their_sixteen] = times.map(median);
    println!(
        "One section of 16 MiB takes {:.2} times as long as sixteen of 1 MiB here, {:.2} times in the Rust.",
        one / sixteen,
        their_one / their_sixteen
    );
}

/// The reading, the directory, and what holds the last byte of a section that ends with an entity, by turns. The goals are for
/// the ratios of the latter two to the reading.
fn directory(name: &str, section: &[u8], goal: f64, goal_at: f64) {
    let mut table = vec![0; ROW_WIDTH * section.len()];
    let (count, rows) = read(section, &mut table).expect("accepted");
    table.truncate(ROW_WIDTH * rows);
    let mut records = vec![Record::default(); count];
    let last = section.len() as u64 - 1;
    let mut times = [const { Vec::new() }; 3];
    for _ in 0..TURNS {
        let (time, answer) = milliseconds(|| read(black_box(section), &mut table));
        assert_eq!(answer, Ok((count, rows)), "{name}: the reading");
        times[0].push(time);
        let (time, answer) = milliseconds(|| read_directory(black_box(section), &mut table, &mut records));
        assert_eq!(answer, [0, 0, count as u64, rows as u64], "{name}: the directory");
        times[1].push(time);
        let (time, answer) = milliseconds(|| entity_at(black_box(section), last));
        assert_eq!(answer, [0, 0, 1, count as u64 - 1], "{name}: the last byte");
        times[2].push(time);
    }
    let ratio = |i: usize| median((0..TURNS).map(|turn| times[i][turn] / times[0][turn]).collect());
    let (ratio, ratio_at) = (ratio(1), ratio(2));
    let [read, list, at] = times.map(median);
    print!("{name:32} {:9} {count:8} {rows:8} {read:9.3}", section.len());
    println!(" {list:9.3} {ratio:7.2}x {goal:4.1}x {at:9.3} {ratio_at:7.2}x {goal_at:4.1}x");
}

fn directories() {
    println!(
        "\nThe directory, and what holds the last byte, beside the reading: milliseconds, medians of {TURNS} turns."
    );
    println!("The ratios to the reading are medians of the turns' ratios, and are to be at most the goals.\n");
    println!(
        "{:32} {:>9} {:>8} {:>8} {:>9} {:>9} {:>8} {:>5} {:>9} {:>8} {:>5}",
        "a section of", "bytes", "entities", "rows", "read", "directory", "ratio", "goal", "last byte", "ratio", "goal"
    );
    directory("functions, 8 MiB", &entries(8 * MIB, function), 1.3, 1.0);
    directory("empty schemas, 8 MiB", &entries(8 * MIB, |_| schema(b"")), 2.0, 1.0);
}

/// Prints the time of the path report on `count` entries, of which `pairs` pairs repeat a path.
fn report(name: &str, count: usize, pairs: u64, entry: impl Fn(usize) -> Entry) {
    let mut section = Vec::new();
    (0..count).for_each(|i| entry(i).add_to(&mut section));
    assert!(section.len() <= LIMIT, "{name}: {} bytes", section.len());
    let report = || {
        let (time, answer) = milliseconds(|| path_repeats(black_box(&section)));
        assert_eq!(answer, Ok(pairs), "{name}: pairs");
        time
    };
    let time = median((0..PATH_TURNS).map(|_| report()).collect());
    println!("{name:48} {:9} {count:8} {pairs:13} {time:9.1}", section.len());
}

/// The `i`th text of `N` digits of base 64, in the order of their bytes.
fn nth<const N: usize>(i: usize) -> [u8; N] {
    std::array::from_fn(|at| b'0' + (i >> (6 * (N - 1 - at)) & 63) as u8)
}

/// The same texts in no order, each once.
fn scattered<const N: usize>(i: usize) -> [u8; N] {
    nth(i * 0x9e_3779 % 64usize.pow(N as u32))
}

/// How many pairs there are among `n`.
fn pairs_of(n: usize) -> u64 {
    (n * n.saturating_sub(1) / 2) as u64
}

/// The path report on triggers, and on ords and hashes, with work that the crate lends.
fn paths(all: bool) {
    println!("\nThe path report on triggers, if nothing else is said: milliseconds, medians of {PATH_TURNS} turns.\n");
    println!("{:48} {:>9} {:>8} {:>13} {:>9}", "full paths", "bytes", "entities", "pairs", "here");
    let most = if all { 100_000 } else { 10_000 };
    for count in [1_000, 10_000, 100_000].into_iter().filter(|&count| count <= most) {
        report("all different, 37 bytes each", count, 0, trigger);
    }
    if !all {
        return;
    }
    // 600,000 entries leave 577,216 bytes for their paths: 8 in 25 have three each, the others none
    report("192,000 different of 3 bytes, the others empty", 600_000, pairs_of(408_000), |i| match i % 25 {
        k @ 0..8 => path_alone(scattered::<3>(i / 25 * 8 + k)),
        _ => path_alone(b""),
    });
    // As many as fit, in orders that may be hard for a sort
    let (different, equal) = (LIMIT / 31, LIMIT / 27);
    report("all different, in no order, 4 bytes each", different, 0, |i| path_alone(scattered::<4>(i)));
    report("all different, rising, 4 bytes each", different, 0, |i| path_alone(nth::<4>(i)));
    report("all different, falling, 4 bytes each", different, 0, |i| path_alone(nth::<4>(different - 1 - i)));
    report("all equal, empty", equal, pairs_of(equal), |_| path_alone(b""));
    // Two kinds
    let kind = |i: usize| 6 + (i % 2) as u8;
    report("ords and hashes, two of a path of 3 bytes", 490_000, 0, |i| ord_or_hash(kind(i), scattered::<3>(i / 2)));
    report("ords and hashes, all paths empty", 540_000, 2 * pairs_of(270_000), |i| ord_or_hash(kind(i), b""));
    // Long texts whose first bytes are the same
    let common = "rehab::exercise::".repeat(15)[..250].to_string();
    let after = |len: usize, end: [u8; 4]| path_alone([&common.as_bytes()[..len], &end].concat());
    let long = |end: [u8; 4]| after(250, end);
    report("all different after 60 bytes, in no order", 184_000, 0, |i| after(60, scattered(i)));
    report("all different after 250 bytes, in no order", 58_000, 0, |i| long(scattered(i)));
    report("all different after 250 bytes, rising", 58_000, 0, |i| long(nth(i)));
    report("all different after 250 bytes, falling", 58_000, 0, |i| long(nth(57_999 - i)));
    report("all equal, 254 bytes each", 58_000, pairs_of(58_000), |_| long(*b"note"));
}

fn main() {
    let mut random = Random(3629);
    println!(
        "Milliseconds, medians of {TURNS} turns; the ratio of the medians, and the median of the turns' ratios.\n"
    );
    println!(
        "{:32} {:>9} {:>8} {:>8} {:>9} {:>9} {:>8} {:>8} {:>5}",
        "a section of", "bytes", "entities", "rows", "here", "the Rust", "ratio", "by turns", "goal"
    );
    race("functions, 8 MiB", &entries(8 * MIB, function), 4.0);
    race("empty schemas, 8 MiB", &entries(8 * MIB, |_| schema(b"")), 5.0);
    race("one ASCII text, 8 MiB", &one_text(random.text(8 * MIB - 21, &[1])), 1.0);
    let mut long = random.text(8 * MIB - 24, &[3]);
    long.truncate((8 * MIB - 24) / 3 * 3);
    race("one text of 3 bytes each, 8 MiB", &one_text(long), 1.0);
    race("sentinels, 8 MiB", &entries(8 * MIB, |_| Entry(vec![0, 4, 0, 0, 0, 0x70, 0x67, 0x72, 0x78])), 1.0);
    race("padding, 8 MiB", &vec![0; 8 * MIB], 1.0);
    race("functions, 64 KiB", &entries(MIB / 16, function), 4.0);
    let small = race("functions, 1 MiB", &entries(MIB, function), 4.0);
    let large = race("functions, 16 MiB", &entries(16 * MIB, function), 4.0);
    println!(
        "\n16 times the bytes take {:.2} times as long here, {:.2} times in the Rust.",
        large.0 / small.0,
        large.1 / small.1
    );
    growth();
    directories();
    paths(std::env::args().any(|word| word == "--paths"));
}
