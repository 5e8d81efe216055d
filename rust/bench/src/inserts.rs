//! Builds, and inserts one by one.
use crate::data::{self, Row, Set, Shape};
use crate::sides::{capacity, keys, table, trie};
use crate::times::{head, medians, micros, millis, side, timed, Side};
use ducatbriar::calls;
use oracle::{ColumnTrie, GallopingSeek, Relation, Tuples};
use std::hint::black_box;

/// kermit: a batch of rows into a trie. Ours: the same rows, in a buffer that is sorted in place, into the pool.
pub fn build(times: usize) {
    head(2, &["rows", "data", "kermit", "ours", "ours / kermit"]);
    for set in data::four(4096).into_iter().chain(data::large()) {
        let rows = set.rows(0).concat();
        let theirs = keys(&rows);
        let room = capacity(set.count);
        let mut pool = vec![1; 4 * room];
        let kermit: Side = Box::new(|| {
            let batch = || Tuples::from_flat(2, set.count, theirs.clone());
            timed(batch, |batch| ColumnTrie::<GallopingSeek>::from_tuples(2.into(), batch))
        });
        let ours: Side = Box::new(|| {
            timed(
                || rows.clone(),
                |mut rows| assert_eq!(calls::build(&mut rows, &mut pool, 0, 2, room as u64, calls::Kinds::default()).number, 0),
            )
        });
        let [kermit, ours] = medians(times, [kermit, ours]);
        println!("| {} | {} | {} | {} | {:.2} |", set.count, set.name, micros(kermit), micros(ours), ours / kermit);
    }
}

/// A table of the last rows, and the first ones, which it lacks.
pub struct Growing {
    pub new: Vec<Row>,
    pub old: Vec<Row>,
    pool: Vec<u64>,
    pub table: calls::ColumnTrie,
}

impl Growing {
    /// `new` rows are to come to `old` ones.
    pub fn of(set: Set, new: usize, old: usize) -> Growing {
        let rows = Set { count: old + new, ..set }.rows(0);
        let (new, old) = (rows[..new].to_vec(), rows[new..].to_vec());
        let (pool, table) = table(&old, capacity(rows.len()));
        Growing { new, old, pool, table }
    }

    pub fn kermit(&self) -> Side<'_> {
        let new: Vec<[usize; 2]> = self.new.iter().map(|row| row.map(|key| key as usize)).collect();
        let grown = move |mut trie: ColumnTrie<GallopingSeek>| {
            new.iter().for_each(|row| trie.insert(row));
            trie
        };
        Box::new(move || timed(|| trie(&self.old), &grown))
    }

    pub fn ours(&self) -> Side<'_> {
        let grown = |mut pool: Vec<u64>| {
            let table = self.new.iter().fold(self.table, |table, row| calls::insert(&mut pool, table, row).table);
            assert_eq!(table.tuple_count as usize, self.old.len() + self.new.len());
            pool
        };
        Box::new(move || timed(|| self.pool.clone(), grown))
    }

    /// What each of our inserts does first, and kermit's don't: to look whether the table is damaged. As often as there are new rows.
    pub fn checks(&self) -> Side<'_> {
        side(|| (0..self.new.len()).all(|_| calls::undamaged(black_box(&self.pool), self.table)))
    }
}

pub fn insert(times: usize) {
    head(2, &["rows", "data", "kermit, 64 inserts", "ours", "ours / kermit", "64 checks alone", "checks / kermit"]);
    for set in data::four(4096).into_iter().chain(data::large()) {
        let growing = Growing::of(set, 64, set.count - 64);
        let [kermit, ours, checks] = medians(times, [growing.kermit(), growing.ours(), growing.checks()]);
        print!("| {} | {} | {} | {} | {:.2} |", set.count, set.name, micros(kermit), micros(ours), ours / kermit);
        println!(" {} | {:.2} |", micros(checks), checks / kermit);
    }
}

/// 1,000 inserts, as a person waits for them.
pub fn wait(times: usize) {
    head(2, &["rows before", "data", "kermit, 1,000 inserts", "ours", "ours / kermit"]);
    for old in [4_000, 50_000] {
        let bands = Set { name: "bands under one surface", shape: Shape::Bands, count: old };
        for set in data::four(old).into_iter().chain([bands]) {
            let growing = Growing::of(set, 1000, old);
            let [kermit, ours] = medians(times, [growing.kermit(), growing.ours()]);
            println!("| {old} | {} | {} | {} | {:.2} |", set.name, millis(kermit), millis(ours), ours / kermit);
        }
    }
}
