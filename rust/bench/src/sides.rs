//! What both sides are handed: kermit's tries, and our tables in a pool.
use crate::data::Row;
use ducatbriar::calls::{self, Kinds, Tables};
use ducatbriar::limits::MAX_CAPACITY;
use oracle::{ColumnTrie, Relation, SeekStrategy, Tuples};

pub fn keys(words: &[u64]) -> Vec<usize> {
    words.iter().map(|&word| word as usize).collect()
}

pub fn trie<S: SeekStrategy>(rows: &[Row]) -> ColumnTrie<S> {
    ColumnTrie::from_tuples(2.into(), Tuples::from_flat(2, rows.len(), keys(&rows.concat())))
}

/// Room for so many rows: 4,096, or as many as a table can have.
pub fn capacity(rows: usize) -> usize {
    if rows <= 4096 {
        4096
    } else {
        MAX_CAPACITY
    }
}

/// A pool with a table for each of the relations.
pub fn tables(relations: &[Vec<Row>], capacity: usize) -> (Vec<u64>, Tables) {
    let mut pool = vec![1; relations.len() * 4 * capacity];
    let mut tables = Tables { count: relations.len() as u64, ..Default::default() };
    for (i, rows) in relations.iter().enumerate() {
        let built = calls::build(&mut rows.concat(), &mut pool, (i * 4 * capacity) as u64, 2, capacity as u64, Kinds::default());
        assert_eq!(built.number, 0);
        tables.tables[i] = built.table;
    }
    (pool, tables)
}

/// A pool with a table of these rows, with this room.
pub fn table(rows: &[Row], capacity: usize) -> (Vec<u64>, calls::ColumnTrie) {
    let (pool, tables) = tables(&[rows.to_vec()], capacity);
    (pool, tables.tables[0])
}
