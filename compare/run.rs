//! The differential run: what pgrx-sql-entity-graph reads and writes, beside what is read and written here. Built and run by
//! `compare/run`. Each input is also read by the layouts, for the numbers, places and rows that the Rust does not give.
#[allow(dead_code)]
mod common;
mod comparison;
#[allow(dead_code)]
mod flatten;
mod generate;
mod inputs;
mod layouts;
mod objects;
mod rebuild;
mod report;
mod sample;
mod spelled;
mod what;
mod written;

use comparison::Comparison;
use generate::Generator;
use inputs::{large, large_lists, options, short, systematic, Compare};
use what::What;

/// Inputs by the layouts, each followed by a damaged one.
fn generated(comparison: &mut Comparison, cases: u64, seed: u64) {
    let mut generator = Generator::new(seed);
    for case in 0..cases {
        let (what, whole, damaged) = match case % 8 {
            0..3 => (What::Section, "generated sections", "damaged sections"),
            3..5 => (What::Payload, "generated payloads", "damaged payloads"),
            5..7 => (What::Metadata, "generated records", "damaged records"),
            _ => (What::Mapping, "generated mappings", "damaged mappings"),
        };
        let bytes = generator.make(what);
        comparison.reading(whole, what, &bytes);
        comparison.parts(&bytes, &mut generator.random);
        let bytes = generator.damaged(what);
        comparison.reading(damaged, what, &bytes);
        comparison.parts(&bytes, &mut generator.random);
        if let What::Metadata | What::Mapping = what {
            let usual = (generator.unused, generator.text_len);
            (generator.unused, generator.text_len) = (false, [4, 12, 80][case as usize / 8 % 3]);
            comparison.writing(what, &mut generator);
            (generator.unused, generator.text_len) = usual;
        }
    }
}

/// Sections and payloads that are written from rows, each followed by damaged rows.
fn entities(comparison: &mut Comparison, cases: u64, seed: u64) {
    let mut generator = Generator::new(seed);
    for case in 0..cases {
        let what = if case % 2 == 0 { What::Section } else { What::Payload };
        comparison.writing_entities(what, &mut generator);
    }
}

fn print(comparison: &Comparison) {
    let compared = [
        ("number, place and rows", comparison.classes.values().map(|class| class.inputs).sum()),
        ("tables of a row less", comparison.short_tables),
        ("entities", comparison.entities),
        ("texts at the Rust's places", comparison.borrowed),
        ("readings as leaves", comparison.dumps),
        ("altered rows, all noticed", comparison.altered),
        ("texts of rows", comparison.calls.row_texts),
        ("SQL names", comparison.calls.sql_names),
        ("SQL texts in the section", comparison.calls.sql_texts_in_section),
        ("SQL texts in the buffer", comparison.calls.sql_texts_in_buffer),
        ("mappings without SQL text", comparison.calls.sql_text_refusals),
        ("texts of any row", comparison.any_texts),
        ("SQL names of any row", comparison.any_names),
        ("starts of SQL names", comparison.any_starts),
        ("SQL texts at any offset", comparison.any_sql_texts),
        ("path reports", comparison.path_reports),
        ("pairs that repeat a path", comparison.path_repeats),
        ("pairs of two kinds, one path", comparison.shared_paths),
        ("checks of a text alone", comparison.checks),
        ("sections written", comparison.sections),
        ("payloads written", comparison.payloads),
        ("rows that spell neither, 14", comparison.refused_rows[14]),
        ("rows with a bad text, 15", comparison.refused_rows[15]),
        ("records written", comparison.records),
        ("mappings written", comparison.mappings),
        ("longer than 256, not written", comparison.long),
        ("lengths before writing", comparison.lengths),
    ];
    report::print(&comparison.classes, &comparison.refusals, &compared, comparison.differences);
}

fn main() {
    let usage = "compare/run [--cases N] [--seed S], or compare/run --sample N [--seed S]";
    let options = options(usage, 3_000_000, Some("--sample"));
    let seed = options["--seed"];
    if let Some(&count) = options.get("--sample") {
        return sample::print(count, seed);
    }

    let mut comparison = Comparison::default();
    generated(&mut comparison, options["--cases"], seed);
    entities(&mut comparison, options["--cases"].div_ceil(2), seed);
    systematic(&mut comparison, options["--cases"].div_ceil(2000), seed);
    let mut generator = Generator::new(seed);
    large(&mut comparison, &mut generator);
    large_lists(&mut comparison, &mut generator);
    short(&mut comparison, 3);
    println!("seed {seed}\n");
    print(&comparison);
    std::process::exit((comparison.differences > 0).into());
}
