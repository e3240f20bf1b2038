//! Counts by a key, and the classes of things that must come up in a comparison, or never do.

use std::collections::BTreeMap;
use std::io::{self, Write};

use crate::log::SETUP;
use crate::rules::FIXED_PRIORITY;

pub type Counts<K> = BTreeMap<K, u64>;

pub fn add<K: Ord>(counts: &mut Counts<K>, key: K) {
    *counts.entry(key).or_default() += 1;
}

/// Adds the counts of a part.
pub fn add_all<K: Ord + Copy>(counts: &mut Counts<K>, part: &Counts<K>) {
    for (key, count) in part {
        *counts.entry(*key).or_default() += count;
    }
}

pub fn count<K: Ord>(counts: &Counts<K>, key: K) -> u64 {
    counts.get(&key).copied().unwrap_or(0)
}

/// How many were counted above a key.
pub fn above<K: Ord>(counts: &Counts<K>, key: K) -> u64 {
    counts
        .iter()
        .filter(|(found, _)| **found > key)
        .map(|(_, count)| count)
        .sum()
}

/// The least count of the keys from 1 to `last`.
pub fn least(counts: &Counts<usize>, last: usize) -> u64 {
    (1..=last).map(|key| count(counts, key)).min().unwrap_or(0)
}

/// What setups there are, by their kind and their mode.
pub const SETUPS: [&str; 3] = [
    "a setup of kind 1",
    "a setup of kind 7 and mode 0",
    "a setup of kind 7 and mode 1",
];

/// Which of these a setup of this kind and this mode is.
pub fn setup_in_words(kind: u16, mode: u8) -> &'static str {
    match (kind, mode) {
        (SETUP, _) => SETUPS[0],
        (_, FIXED_PRIORITY) => SETUPS[1],
        _ => SETUPS[2],
    }
}

/// A class of things that must come up: how often it did, and the least that will do.
pub struct Class {
    pub what: String,
    pub count: u64,
    pub least: u64,
}

impl Class {
    pub fn new(what: impl Into<String>, count: u64, least: u64) -> Class {
        Class {
            what: what.into(),
            count,
            least,
        }
    }

    /// A class that must come up once at least.
    pub fn once(what: impl Into<String>, count: u64) -> Class {
        Class::new(what, count, 1)
    }
}

/// What the rules never let come up, and how often it did.
pub struct Never {
    pub what: String,
    pub count: u64,
}

impl Never {
    pub fn new(what: impl Into<String>, count: u64) -> Never {
        let what = what.into();
        Never { what, count }
    }
}

/// A line for each class, and for each thing that the rules never let come up.
pub fn print_classes(
    report: &mut impl Write,
    classes: &[Class],
    nevers: &[Never],
) -> io::Result<()> {
    let words = classes.iter().map(|class| &class.what);
    let words = words.chain(nevers.iter().map(|never| &never.what));
    let width = words.map(String::len).max().unwrap_or(0);
    for Class { what, count, .. } in classes {
        writeln!(report, "  {what:<width$} {count:>9}")?;
    }
    for Never { what, count } in nevers {
        writeln!(report, "  {what:<width$} {count:>9} (the rules allow none)")?;
    }
    Ok(())
}
