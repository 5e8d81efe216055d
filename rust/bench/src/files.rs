//! Table files: writes and reads beside those of a plain writer and reader that check the same things.
use crate::data::Words;
use crate::plain_files;
use crate::times::{head, medians, side};
use ducatbriar::calls::{self, ColumnTrie, Kinds};
use ducatbriar::limits::{file, words, MAX_CAPACITY};
use std::collections::BTreeSet;

pub const ROWS: usize = 50_000;
pub const ARITY: usize = 3;
/// What words are below, as it is written and as it is.
pub const KEYS: [(&str, u64); 4] = [("40", 40), ("500", 500), ("50,000", 50_000), ("2^64 - 1", u64::MAX)];

/// A table of so many rows, whose words are below `keys`, with a grade in its first column.
pub fn table(keys: u64) -> (Vec<u64>, ColumnTrie) {
    let (mut drawn, mut rows) = (Words(0x9e37_79b9_7f4a_7c15), BTreeSet::new());
    while rows.len() < ROWS {
        rows.insert([(); ARITY].map(|()| drawn.word() % keys));
    }
    let mut given: Vec<u64> = rows.into_iter().flatten().collect();
    let mut pool = vec![1; words(ARITY, MAX_CAPACITY)];
    let kinds = Kinds { grade: [true, false, false, false, false, false, false, false] };
    let built = calls::build(&mut given, &mut pool, 0, ARITY as u64, MAX_CAPACITY as u64, kinds);
    assert_eq!(built.number, 0);
    (pool, built.table)
}

/// Each side's time for a turn, in nanoseconds: our write, the plain one, our read, the plain one.
fn timed(times: usize, pool: &[u64], table: ColumnTrie) -> (usize, [f64; 4]) {
    let mut bytes = vec![1; file(ARITY, ROWS)];
    let mut plain_bytes = bytes.clone();
    let written = calls::write(pool, table, &mut bytes);
    assert_eq!((written.number, plain_files::write(pool, table, &mut plain_bytes)), (0, Some(written.len as usize)));
    assert_eq!(bytes, plain_bytes);
    bytes.truncate(written.len as usize);

    let (mut read, mut plain_read) = (vec![1; pool.len()], vec![1; pool.len()]);
    assert_eq!(calls::read(&bytes, &mut read, 0, MAX_CAPACITY as u64).table, table);
    assert_eq!(plain_files::read(&bytes, &mut plain_read, 0, MAX_CAPACITY), Some(table));
    assert_eq!(read, plain_read);

    let (mut ours, mut plain) = (bytes.clone(), bytes.clone());
    let sides = [
        side(|| assert_eq!(calls::write(pool, table, &mut ours).number, 0)),
        side(|| assert!(plain_files::write(pool, table, &mut plain).is_some())),
        side(|| assert_eq!(calls::read(&bytes, &mut read, 0, MAX_CAPACITY as u64).number, 0)),
        side(|| assert!(plain_files::read(&bytes, &mut plain_read, 0, MAX_CAPACITY).is_some())),
    ];
    (bytes.len(), medians(times, sides))
}

pub fn files(times: usize) {
    head(1, &["words below", "bytes", "write", "plain", "ours / plain", "read", "plain", "ours / plain"]);
    for (name, keys) in KEYS {
        let (pool, table) = table(keys);
        let (len, [write, plain_write, read, plain_read]) = timed(times, &pool, table);
        let speed = |time: f64| format!("{:.0} MB/s", len as f64 / time * 1e3);
        print!("| {name} | {len} | {} | {} | {:.2} |", speed(write), speed(plain_write), write / plain_write);
        println!(" {} | {} | {:.2} |", speed(read), speed(plain_read), read / plain_read);
    }
}
