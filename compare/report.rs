//! What the comparisons with the Rust print: the differences, the inputs by class, and what was compared.
use std::collections::BTreeMap;
use std::fmt::Debug;
use std::panic::{catch_unwind, AssertUnwindSafe};

/// How many inputs of a class there were, and how many of them the Rust accepted, the Rust refused, and lie outside the domain.
#[derive(Default)]
pub struct Class {
    pub inputs: u64,
    pub accepted: u64,
    pub refused: u64,
    pub outside: u64,
}

/// The classes by their names.
pub type Classes = BTreeMap<&'static str, Class>;

impl Class {
    /// Counts an input, by what the Rust reads if it is in the domain.
    pub fn add<T>(&mut self, theirs: &Option<Option<T>>) {
        self.inputs += 1;
        match theirs {
            Some(Some(_)) => self.accepted += 1,
            Some(None) => self.refused += 1,
            None => self.outside += 1,
        }
    }
}

/// Prints the inputs, the refusals by their numbers, how often each thing was compared, and the number of differences.
pub fn print(classes: &Classes, refusals: &[u64], compared: &[(&str, u64)], differences: u64) {
    println!("{:28} {:>11} {:>11} {:>11} {:>11}", "", "", "accepted", "refused", "outside");
    println!("{:28} {:>11} {:>11} {:>11} {:>11}", "inputs", "number", "by both", "by both", "the domain");
    for (name, Class { inputs, accepted, refused, outside }) in classes {
        println!("{name:28} {inputs:11} {accepted:11} {refused:11} {outside:11}");
    }
    println!("\nrefusals by number, of inputs in the domain and outside:");
    for (number, count) in refusals.iter().enumerate().skip(1).filter(|(_, count)| **count > 0) {
        println!("{number:28} {count:11}");
    }
    println!("\ncompared:");
    for (name, count) in compared {
        println!("{name:28} {count:11}");
    }
    println!("\n{differences} differences");
}

/// Counts a difference, and prints the first ones.
pub fn differ(differences: &mut u64, what: impl Debug, bytes: &[u8], why: &str) {
    *differences += 1;
    if *differences <= 10 {
        let why: String = why.chars().take(2000).collect();
        println!("a difference on {} bytes as {what:?}: {why}\n  {}", bytes.len(), shortened(bytes));
    }
}

/// What a comparison finds. It is a difference too if the crate panics, as it does where an answer of the archive breaks the
/// header's promises.
pub fn attempt(compare: impl FnOnce() -> Result<(), String>) -> Result<(), String> {
    let panicked = |_| Err("a panic, whose message stands above".to_string());
    catch_unwind(AssertUnwindSafe(compare)).unwrap_or_else(panicked)
}

pub fn hexadecimal(bytes: &[u8]) -> String {
    match bytes.is_empty() {
        true => "-".to_string(),
        false => bytes.iter().map(|byte| format!("{byte:02x}")).collect(),
    }
}

/// Bytes in hexadecimal, the first and the last of many.
pub fn shortened(bytes: &[u8]) -> String {
    match bytes.len() {
        0..=600 => hexadecimal(bytes),
        len => format!("{} .. {}", hexadecimal(&bytes[..300]), hexadecimal(&bytes[len - 300..])),
    }
}
