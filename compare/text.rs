//! The text check beside `std::str::from_utf8`, how much of a name the server keeps beside that and `is_char_boundary`, and where SQL
//! names start beside that and `split`: first the answers, then the speed. Built and run by `compare/text [SEED]`.
mod common;

use common::{median, Random};
use pgrxsc::{Refusal, Row, Sort};
use std::hint::black_box;
use std::time::Instant;

fn std(text: &[u8]) -> bool {
    std::str::from_utf8(text).is_ok()
}

/// How many bytes of a name the server keeps: the greatest character boundary at or below 63, as `str::floor_char_boundary` has it.
fn std_kept(text: &[u8]) -> Option<usize> {
    let text = std::str::from_utf8(text).ok()?;
    (0..=text.len().min(63)).rev().find(|&at| text.is_char_boundary(at))
}

/// Compares the answers on a text, with the boundary and without it, and counts it.
fn compare(text: &[u8], count: &mut u64) {
    *count += 1;
    let kept = std_kept(text);
    if pgrxsc::check_text(text) != kept || pgrxsc::is_text(text) != kept.is_some() {
        println!("differs: std keeps {kept:?} of {text:02x?}");
        std::process::exit(1);
    }
}

/// The same, and compares the kept name of the row that has the text: alone, and with parts of a character before and behind it.
fn compare_kept(text: &[u8], count: &mut u64) {
    compare(text, count);
    for around in [0, 3] {
        let bytes = [&[0xf0, 0x9f, 0x98][..around], text, &[0x80; 3][..around]].concat();
        let right = std_kept(text).map(|len| &bytes[around..around + len]).ok_or(Refusal::new(15, 0));
        let kept = pgrxsc::kept_name(&bytes, Row::new(Sort::Text, around as u32, text.len() as u32));
        if kept.map(|name| name.as_bytes().as_ptr_range()) != right.map(<[u8]>::as_ptr_range) {
            println!("differs: std keeps {:?} of the name at {around} in {bytes:02x?}", std_kept(text));
            std::process::exit(1);
        }
    }
}

/// Every string of `n` bytes whose first byte is one of the given.
fn exhaust(n: usize, first: std::ops::RangeInclusive<u8>, count: &mut u64) {
    for lead in first {
        let mut text = vec![0; n];
        text[0] = lead;
        'next: loop {
            compare(&text, count);
            for byte in text[1..].iter_mut().rev() {
                *byte = byte.wrapping_add(1);
                if *byte != 0 {
                    continue 'next;
                }
            }
            break;
        }
    }
}

/// Texts of up to 300 bytes with up to three bytes changed.
fn damage(random: &mut Random, texts: usize, count: &mut u64) {
    let sizes: [&[usize]; 4] = [&[1], &[1, 1, 1, 1, 1, 1, 1, 1, 2], &[1, 2, 3, 4], &[3]];
    for _ in 0..texts {
        let (len, kind) = (random.below(300), random.below(sizes.len()));
        let mut text = random.text(len, sizes[kind]);
        text.truncate(len);
        for _ in 0..random.below(4).min(len) {
            let at = random.below(len);
            text[at] = random.next() as u8;
        }
        compare_kept(&text, count);
    }
}

/// Where the SQL name starts, by the calls that the Rust makes for a declared function.
fn std_start(name: &[u8]) -> Option<usize> {
    let text = std::str::from_utf8(name).ok()?;
    text.split("::").last().map(|last| name.len() - last.len())
}

/// Compares where the SQL name starts and counts the name.
fn compare_start(name: &[u8], count: &mut u64) {
    *count += 1;
    if pgrxsc::name_start(name) != std_start(name) {
        println!("differs: the SQL name starts at {:?} in {:02x?}", std_start(name), name);
        std::process::exit(1);
    }
}

/// What names are made of to see where SQL names start, and where the server cuts them. The last two are parts of characters.
const COLON_PIECES: [&[u8]; 6] = [b":", b"a", b"\xc3\xa9", b"\xe2\x82\xac", b"\xc3", b"\x80"];
const CUT_PIECES: [&[u8]; 6] = [b"a", b"\xc3\xa9", b"\xe2\x82\xac", b"\xf0\x9f\x98\x80", b"\xc3", b"\x80"];

/// Compares a name, and it with every sequence of up to `n` pieces behind it.
fn pieced(compare: fn(&[u8], &mut u64), name: &mut Vec<u8>, pieces: &[&[u8]], n: usize, count: &mut u64) {
    compare(name, count);
    if n > 0 {
        for piece in pieces {
            let len = name.len();
            name.extend(*piece);
            pieced(compare, name, pieces, n - 1, count);
            name.truncate(len);
        }
    }
}

/// A name of `n` bytes: words of some 3 to 12 bytes, of characters of these sizes, with `::` between them.
fn name(random: &mut Random, n: usize, sizes: &[usize]) -> Vec<u8> {
    let mut name = Vec::new();
    loop {
        let len = 3 + random.below(10);
        let word = random.text(len, sizes);
        if name.len() + word.len() + 2 > n {
            name.resize(n, b'a');
            return name;
        }
        name.extend(word.iter().map(|&byte| if byte == b':' { b'_' } else { byte }));
        name.extend(b"::");
    }
}

fn seconds(check: fn(&[u8]) -> bool, texts: &[Vec<u8>], rounds: usize) -> f64 {
    let start = Instant::now();
    for _ in 0..rounds {
        for text in texts {
            assert!(black_box(check(black_box(text))));
        }
    }
    start.elapsed().as_secs_f64()
}

/// Two checks by turns over the same texts: the medians of 31 turns, and how often the first fits into the second.
fn race_by(first: fn(&[u8]) -> bool, second: fn(&[u8]) -> bool, (name, texts, rounds): &Shape) {
    let (mut first_times, mut second_times) = (Vec::new(), Vec::new());
    for _ in 0..31 {
        first_times.push(seconds(first, texts, *rounds));
        second_times.push(seconds(second, texts, *rounds));
    }
    let each = |times| median(times) * 1e9 / (texts.len() * rounds) as f64;
    let (first_time, second_time) = (each(first_times), each(second_times));
    println!("{name:32} {first_time:12.1} ns {second_time:12.1} ns {:8.2}x", second_time / first_time);
}

/// What a table of speeds has in its first line.
fn head(texts: &str, first: &str, second: &str) {
    println!("\n{texts:32} {first:>15} {second:>15} {:>9}", "ratio");
}

/// A shape of texts: its name, the texts, and how often a turn goes over them.
type Shape = (String, Vec<Vec<u8>>, usize);

/// A thousand texts, each made by the function.
fn thousand(name: String, text: impl FnMut(usize) -> Vec<u8>) -> Shape {
    (name, (0..1000).map(text).collect(), 50)
}

/// The shapes on which the text check is timed.
fn shapes(random: &mut Random) -> Vec<Shape> {
    let mut shapes = Vec::new();
    let mib = 1 << 20;
    shapes.push(("1 MiB of ASCII".into(), vec![random.text(mib, &[1])], 20));
    shapes.push(("1 MiB of 1 to 4 bytes each".into(), vec![random.text(mib, &[1, 2, 3, 4])], 2));
    for size in 2..=4 {
        shapes.push((format!("1 MiB of {size} bytes each"), vec![random.text(mib, &[size])], 2));
    }
    for n in [0, 5, 10, 24, 40, 64, 100, 200] {
        shapes.push(thousand(format!("{n} bytes of ASCII"), |_| random.text(n, &[1])));
    }
    let lengths: Vec<_> = (0..1000).map(|_| random.below(41)).collect();
    shapes.push(thousand("0 to 40 bytes of ASCII".into(), |at| random.text(lengths[at], &[1])));
    for n in [24, 64, 100, 200] {
        shapes.push(thousand(format!("{n} bytes of 1 to 4 bytes each"), |_| random.text(n, &[1, 2, 3, 4])));
    }
    shapes
}

/// The shapes of names on which the walk over a name is timed.
fn name_shapes(random: &mut Random) -> Vec<Shape> {
    let mut shapes = Vec::new();
    for n in [10, 20, 30, 40, 50, 60] {
        shapes.push(thousand(format!("{n} bytes of ASCII"), |_| name(random, n, &[1])));
    }
    for n in [10, 30, 60] {
        shapes.push(thousand(format!("{n} bytes of 1 to 4 bytes each"), |_| name(random, n, &[1, 2, 3, 4])));
    }
    shapes
}

/// Compares the answers.
fn answers(random: &mut Random, seed: u64) {
    let mut count = 0;
    compare(b"", &mut count);
    for n in 1..=3 {
        exhaust(n, 0..=255, &mut count);
    }
    exhaust(4, 0xf0..=0xf5, &mut count);
    damage(random, 2_000_000, &mut count);
    println!("{count} strings compared, no difference (seed {seed})");
    let mut cut = 0;
    for letters in 52..=63 {
        pieced(compare_kept, &mut vec![b'a'; letters], &CUT_PIECES, 7, &mut cut);
    }
    println!("{cut} names around the cut compared, no difference");
    let mut names = 0;
    pieced(compare_start, &mut Vec::new(), &COLON_PIECES, 8, &mut names);
    println!("{names} names compared, no difference");
}

fn main() {
    let seed = std::env::args().nth(1).map_or(3629, |seed| seed.parse().expect("a number as seed"));
    let mut random = Random(seed | 1);
    answers(&mut random, seed);

    let shapes = shapes(&mut random);
    head("a text of", "ours", "std");
    for shape in &shapes {
        race_by(pgrxsc::is_text, std, shape);
    }
    head("the check with its boundary of", "with", "without");
    for shape in &shapes {
        race_by(|text| pgrxsc::check_text(text).is_some(), pgrxsc::is_text, shape);
    }
    head("the start in a name of", "ours", "std");
    for shape in &name_shapes(&mut random) {
        race_by(|name| pgrxsc::name_start(name).is_some(), |name| std_start(name).is_some(), shape);
    }
}
