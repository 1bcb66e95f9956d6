//! The report on repeated paths.

mod common;

use common::{custom_sql, entry, function, schema, sentinel, trigger};
use pgrxsc::builder::{
    Aggregate, Builder, CustomSql, Function, PostgresEnum, PostgresHash, PostgresOrd, PostgresType,
    Schema, Trigger,
};
use pgrxsc::{path_repeats, EntityKind, Refusal, LIMIT};
use std::collections::HashMap;

/// A section with a function of each path.
fn functions(paths: &[String]) -> Vec<u8> {
    let entries = paths.iter().map(|path| entry(&function(path, &[])));
    entries.flatten().collect()
}

/// The pairs, by counting how often each path stands there.
fn counted(paths: &[String]) -> u64 {
    let mut counts = HashMap::new();
    for path in paths {
        *counts.entry(path).or_insert(0_u64) += 1;
    }
    counts.values().map(|count| count * (count - 1) / 2).sum()
}

fn agree(paths: &[String]) -> u64 {
    let pairs = counted(paths);
    assert_eq!(path_repeats(&functions(paths)), Ok(pairs));
    pairs
}

#[test]
fn few() {
    let pairs = |paths: &[&str]| {
        agree(
            &paths
                .iter()
                .map(|path| path.to_string())
                .collect::<Vec<_>>(),
        )
    };
    assert_eq!(pairs(&[]), 0);
    assert_eq!(pairs(&["a"]), 0);
    assert_eq!(pairs(&["a", "b"]), 0);
    assert_eq!(pairs(&["a", "a"]), 1);
    assert_eq!(pairs(&["a", "b", "a"]), 1);
    assert_eq!(pairs(&["a", "b", "a", "b", "a"]), 4);
    assert_eq!(pairs(&["", "a", "", "aa", "a", "", "aa"]), 5);
}

#[test]
fn all_orders() {
    // All lists of up to six of three paths, one of which begins another.
    for len in 0..=6 {
        for number in 0..3_usize.pow(len) {
            let digits = (0..len).map(|i| number / 3_usize.pow(i) % 3);
            let paths: Vec<String> = digits.map(|digit| ["a", "ab", "b"][digit].into()).collect();
            agree(&paths);
        }
    }
}

/// A section with an entity of each kind and path.
#[rustfmt::skip]
fn entities(kinds_and_paths: &[(EntityKind, &str)]) -> Vec<u8> {
    let mut builder = Builder::new();
    for &(kind, full_path) in kinds_and_paths {
        match kind {
            EntityKind::Schema => builder.add(Schema { name: full_path, ..Schema::default() }),
            EntityKind::CustomSql => builder.add(CustomSql { full_path, ..CustomSql::default() }),
            EntityKind::Function => builder.add(Function { full_path, ..Function::default() }),
            EntityKind::Type => builder.add(PostgresType { full_path, ..PostgresType::default() }),
            EntityKind::Enum => builder.add(PostgresEnum { full_path, ..PostgresEnum::default() }),
            EntityKind::Ord => builder.add(PostgresOrd { full_path, ..PostgresOrd::default() }),
            EntityKind::Hash => builder.add(PostgresHash { full_path, ..PostgresHash::default() }),
            EntityKind::Aggregate => builder.add(Aggregate { full_path, ..Aggregate::default() }),
            EntityKind::Trigger => builder.add(Trigger { full_path, ..Trigger::default() }),
        };
    }
    builder.to_section().unwrap()
}

fn kinds() -> impl Iterator<Item = EntityKind> {
    (1..=9).filter_map(EntityKind::from_number)
}

#[test]
fn a_type_with_its_ordering_and_hashing() {
    use EntityKind::{Function, Hash, Ord, Type};
    let dose = [(Type, "ext::Dose"), (Ord, "ext::Dose"), (Hash, "ext::Dose")];
    assert_eq!(path_repeats(&entities(&dose)), Ok(0));
    let two = [(Function, "ext::dose"), (Function, "ext::dose")];
    assert_eq!(path_repeats(&entities(&two)), Ok(1));
    // Each of the three repeats its own path alone.
    assert_eq!(
        path_repeats(&entities(&[dose, dose, dose].concat())),
        Ok(3 * 3)
    );
}

#[test]
fn two_of_each_kind() {
    for first in kinds() {
        for second in kinds() {
            let pairs = u64::from(first == second && first != EntityKind::Schema);
            let section = entities(&[(first, "a"), (second, "a")]);
            assert_eq!(path_repeats(&section), Ok(pairs), "{first:?}, {second:?}");
            let section = entities(&[(first, "a"), (second, "b")]);
            assert_eq!(path_repeats(&section), Ok(0), "{first:?}, {second:?}");
        }
    }
}

#[test]
fn all_orders_of_kinds() {
    use EntityKind::{Hash, Ord};
    // All lists of up to five of two kinds and two paths.
    let some = [(Ord, "a"), (Ord, "b"), (Hash, "a"), (Hash, "b")];
    for len in 1..=5 {
        for number in 0..4_usize.pow(len) {
            let digits = (0..len).map(|i| number / 4_usize.pow(i) % 4);
            let list: Vec<_> = digits.map(|digit| some[digit]).collect();
            let pairs =
                (0..list.len()).map(|i| list[..i].iter().filter(|&x| *x == list[i]).count());
            let pairs: usize = pairs.sum();
            assert_eq!(path_repeats(&entities(&list)), Ok(pairs as u64), "{list:?}");
        }
    }
}

#[test]
fn other_entities() {
    // Entities of several kinds make no pair, and neither do schemas and sentinels.
    let mut section = [
        entry(&function("", &[])),
        entry(&schema("", "", "", 0)),
        entry(&trigger("")),
        sentinel(),
        entry(&custom_sql(&[1, 1, 0, 0, 0, 0])),
        entry(&trigger("a")),
        entry(&schema("", "", "", 0)),
        entry(&trigger("")),
    ]
    .concat();
    assert_eq!(path_repeats(&section), Ok(1));
    section.extend([0; 9]);
    assert_eq!(path_repeats(&section), Ok(1));
    // The other texts of an entity play no part.
    let schemas = entry(&schema("a", "a", "a", 1)).repeat(3);
    assert_eq!(path_repeats(&schemas), Ok(0));
}

const MANY: usize = 50_000;

/// Numbers below MANY, each once, in an order that is neither rising nor falling.
fn shuffled() -> impl Iterator<Item = usize> {
    (0..MANY).map(|i| i * 7919 % MANY)
}

#[test]
fn many_equal() {
    let pairs = agree(&vec!["a::b".to_string(); MANY]);
    assert_eq!(pairs, 1_249_975_000);
}

#[test]
fn many_different() {
    let paths: Vec<String> = shuffled().map(|i| format!("path::{i}")).collect();
    assert_eq!(agree(&paths), 0);
}

#[test]
fn many_in_order() {
    let mut paths: Vec<String> = (0..MANY).map(|i| format!("path::{:05}", i / 2)).collect();
    assert_eq!(agree(&paths), 25_000);
    paths.reverse();
    assert_eq!(agree(&paths), 25_000);
}

#[test]
fn many_with_a_long_beginning() {
    let beginning = "a".repeat(200);
    let paths = shuffled().map(|i| format!("{beginning}{}", i % 20_000));
    let paths: Vec<String> = paths.collect();
    assert_eq!(agree(&paths), 10_000 * 3 + 10_000);
}

#[test]
fn runs_of_all_sizes() {
    // The root of i below MANY: one 0, three times 1, five times 2, and so on.
    let paths: Vec<String> = shuffled()
        .map(|i| format!("{}", (i as f64).sqrt() as u32))
        .collect();
    agree(&paths);
}

#[test]
fn many_of_all_kinds() {
    // Every path once in each kind, and once more in the first.
    let paths: Vec<String> = (0..1000)
        .map(|i| format!("path::{}", i * 7 % 1000))
        .collect();
    let kinds = kinds().chain([EntityKind::CustomSql]);
    let list: Vec<_> = kinds
        .flat_map(|kind| paths.iter().map(move |path| (kind, path.as_str())))
        .collect();
    assert_eq!(path_repeats(&entities(&list)), Ok(1000));
}

#[test]
fn as_many_as_a_section_can_have() {
    // The smallest entry of an entity with a path.
    let smallest = entry(&trigger(""));
    assert_eq!(smallest.len(), 27);
    let most = LIMIT / smallest.len();
    let section = smallest.repeat(most);
    let most = most as u64;
    assert_eq!(path_repeats(&section), Ok(most * (most - 1) / 2));
}

#[test]
fn refusals() {
    assert_eq!(path_repeats(&entry(&[10])), Err(Refusal::new(8, 4)));
    let mut section = functions(&vec!["a".to_string(); 100]);
    section.push(1);
    let place = section.len() - 1;
    assert_eq!(path_repeats(&section), Err(Refusal::new(2, place)));
    assert_eq!(path_repeats(&vec![0; LIMIT + 1]), Err(Refusal::new(1, 0)));
}
