//! The check for damage beside a plain sum over the same words.
use crate::data;
use crate::sides::{capacity, table};
use crate::times::{head, medians, side};
use ducatbriar::calls::{self, ColumnTrie};
use std::hint::black_box;

/// The used words of a table: each layer's two lists.
fn used(pool: &[u64], table: ColumnTrie) -> Vec<&[u64]> {
    let list = |from: u64, len: u64| &pool[from as usize..(from + len) as usize];
    let lists = |d: usize| {
        let from = table.start + 2 * table.capacity * d as u64;
        [list(from, table.data_len[d]), list(from + table.capacity, table.interval_len[d])]
    };
    (0..table.arity as usize).flat_map(lists).collect()
}

/// Sixteen passes a turn, since one is short beside the clock.
const PASSES: usize = 16;

pub fn check(times: usize) {
    head(2, &["rows", "data", "used words", "check", "check", "sum", "check / sum"]);
    for set in data::four(4096).into_iter().chain(data::four(50_000)) {
        let (pool, table) = table(&set.rows(0), capacity(set.count));
        let lists = used(&pool, table);
        let words: usize = lists.iter().map(|list| list.len()).sum();
        let check = side(|| (0..PASSES).all(|_| calls::undamaged(black_box(&pool), table)));
        let sum = side(|| {
            let sum = |list: &[u64]| list.iter().fold(0u64, |sum, &word| sum.wrapping_add(word));
            (0..PASSES).fold(0u64, |all, _| black_box(&lists).iter().fold(all, |all, list| all.wrapping_add(sum(list))))
        });
        let [check, sum] = medians(times, [check, sum]);
        let speed = |time: f64| (8 * words * PASSES) as f64 / time;
        print!("| {} | {} | {words} | {:.2} µs |", set.count, set.name, check / PASSES as f64 / 1e3);
        println!(" {:.1} GB/s | {:.1} GB/s | {:.2} |", speed(check), speed(sum), check / sum);
    }
}
