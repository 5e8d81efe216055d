//! kermit's side: tries, listings and joins over 64-bit words.
use crate::model::{Layer, Row};
use oracle::*;

const _: () = assert!(usize::BITS == 64, "kermit's keys are as wide as a pointer; the runs need 64 bits");

pub fn keys(words: &[u64]) -> Vec<usize> {
    words.iter().map(|&word| word as usize).collect()
}

pub fn trie<S: SeekStrategy>(arity: usize, rows: &[Row]) -> ColumnTrie<S> {
    ColumnTrie::from_tuples(arity.into(), rows.iter().map(|row| keys(row)).collect::<Vec<_>>())
}

/// The layers, read from the listing, which is all that kermit shows of them.
pub fn layers(listing: &str) -> Vec<Layer> {
    let list = |line: &str, name: &str| -> Vec<u64> {
        let inner = line.strip_prefix(name).and_then(|rest| rest.strip_prefix(": [")).and_then(|rest| rest.strip_suffix(']'));
        let inner = inner.unwrap_or_else(|| panic!("not a line of {name}: {line}"));
        inner.split(", ").filter(|word| !word.is_empty()).map(|word| word.parse().unwrap()).collect()
    };
    let lines: Vec<&str> = listing.lines().collect();
    lines.chunks(3).map(|lines| Layer { data: list(lines[1], "Data"), interval: list(lines[2], "Interval") }).collect()
}

/// The rows of a join, the seeks made until each was found, and all of them.
#[derive(Clone, Debug, PartialEq, Eq)]
pub struct Found {
    pub rows: Vec<Row>,
    until: Vec<u64>,
    all: u64,
}

impl Found {
    /// The seeks where so many rows fit: those up to finding the first that does not, or all.
    pub fn seeks(&self, fit: usize) -> u64 {
        self.until.get(fit).copied().unwrap_or(self.all)
    }
}

pub fn join<S: SeekStrategy>(order: &[usize], atoms: &[(usize, Vec<usize>)], tries: &[ColumnTrie<Counted<S>>]) -> Found {
    let mut found = Found { rows: vec![], until: vec![], all: 0 };
    taken();
    LeapfrogTriejoin::join_for_each(&ExecutedQuery::new(order, atoms), tries, |row| {
        found.all += taken().0 as u64;
        found.until.push(found.all);
        found.rows.push(row.iter().map(|&key| key as u64).collect());
    });
    found.all += taken().0 as u64;
    found
}
