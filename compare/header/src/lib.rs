//! The C header beside the engine's entry points: both are read as text and compared, so that neither drifts from the other.

mod c;
mod rattle;

use std::collections::BTreeMap;

/// What crosses to C, with its width.
#[derive(Debug, Clone, PartialEq, Eq)]
pub enum Type {
    /// An unsigned number of so many bits.
    Number(u32),
    /// A length.
    Size,
    /// Bytes that are only read.
    Lent,
    /// Bytes that may be written.
    Written,
    /// A struct by value, by its name in C.
    Record(String),
}

/// A call: its parameters by name, in order, a slice as its pointer and its length; and what it answers.
#[derive(Debug, Clone, PartialEq, Eq)]
pub struct Call {
    pub parameters: Vec<(String, Type)>,
    pub answer: Type,
}

/// All that one side says.
#[derive(Debug, Clone, Default, PartialEq, Eq)]
pub struct Side {
    pub calls: BTreeMap<String, Call>,
    pub records: BTreeMap<String, Vec<(String, Type)>>,
    /// Constants that the header must have.
    pub constants: BTreeMap<String, u64>,
    /// Constants that the header may have.
    pub others: BTreeMap<String, u64>,
}

pub use c::header;
pub use rattle::{engine, wrapper};

/// Every place where two sides differ. What the second side may have is looked for there, too.
#[must_use]
pub fn drift(header: &Side, engine: &Side) -> Vec<String> {
    let mut found = Vec::new();
    differing("call", &header.calls, &engine.calls, &mut found);
    differing("record", &header.records, &engine.records, &mut found);
    let mut known = engine.constants.clone();
    let also = engine.others.iter().filter(|(name, _)| header.constants.contains_key(*name));
    known.extend(also.map(|(name, value)| (name.clone(), *value)));
    differing("constant", &header.constants, &known, &mut found);
    found
}

fn differing<T: PartialEq + std::fmt::Debug>(what: &str, ours: &BTreeMap<String, T>, theirs: &BTreeMap<String, T>, found: &mut Vec<String>) {
    for (name, one) in ours {
        match theirs.get(name) {
            Some(other) if one == other => {}
            Some(other) => found.push(format!("{what} {name}: {one:?} here, {other:?} there")),
            None => found.push(format!("{what} {name} stands here only")),
        }
    }
    found.extend(theirs.keys().filter(|name| !ours.contains_key(*name)).map(|name| format!("{what} {name} stands there only")));
}

/// A number as both sides write it.
fn number(text: &str) -> Option<u64> {
    let digits = text.trim().replace('_', "");
    match digits.strip_prefix("0x") {
        Some(hex) => u64::from_str_radix(hex, 16).ok(),
        None => digits.parse().ok(),
    }
}

/// The text from behind an opening mark to its closing one, and what follows.
fn enclosed(text: &str, open: char, close: char) -> Option<(&str, &str)> {
    let text = text.trim_start().strip_prefix(open)?;
    text.split_once(close)
}

/// A word at the front, of letters, digits and `_`, and what follows.
fn word(text: &str) -> (&str, &str) {
    let text = text.trim_start();
    let end = text.find(|c: char| !c.is_ascii_alphanumeric() && c != '_').unwrap_or(text.len());
    text.split_at(end)
}

/// Words and signs apart by one blank, so that layout makes no difference.
fn plain(text: &str) -> String {
    text.split_whitespace().collect::<Vec<_>>().join(" ")
}
