//! Document 02's check of a recorded listing, written from its text and from nothing else. It knows all answers, and asks each rule of the rows that are listed.
use crate::model::{answers, join_number, Row};
use ducatbriar::calls::*;

/// What is said of a listing.
#[derive(Clone, Debug, PartialEq, Eq)]
pub enum Verdict {
    Accepted,
    Wrong(usize),
    Missing(Row),
}

/// A row as read in the order.
pub fn read_in(order: &[u64], row: &Row) -> Row {
    order.iter().map(|&v| row[v as usize]).collect()
}

/// Of these rows, where `all` is the complete listing: the first that isn't an answer or doesn't come strictly after the row before it; else the least row
/// missing in the order's sequence.
pub fn verdict(order: &[u64], all: &[Row], rows: &[Row]) -> Verdict {
    let known = |row: &Row| all.binary_search_by_key(&read_in(order, row), |answer| read_in(order, answer)).is_ok();
    let behind = |i: usize| i == 0 || read_in(order, &rows[i - 1]) < read_in(order, &rows[i]);
    if let Some(i) = (0..rows.len()).find(|&i| !known(&rows[i]) || !behind(i)) {
        return Verdict::Wrong(i);
    }
    let listed = |row: &Row| rows.binary_search_by_key(&read_in(order, row), |row| read_in(order, row)).is_ok();
    match all.iter().find(|row| !listed(row)) {
        None => Verdict::Accepted,
        Some(row) => Verdict::Missing(row.clone()),
    }
}

/// The words of an answer: accepted is 1, a wrong row 2, a missing one 3, and 0 says that nothing was checked.
pub fn answer(verdict: Verdict) -> Checked {
    match verdict {
        Verdict::Accepted => Checked { verdict: 1, ..Default::default() },
        Verdict::Wrong(row) => Checked { verdict: 2, row: row as u64, ..Default::default() },
        Verdict::Missing(row) => {
            let mut missing = [0; 8];
            missing[..row.len()].copy_from_slice(&row);
            Checked { verdict: 3, missing, ..Default::default() }
        }
    }
}

/// The rows that words are; for n = 0 the count beside them is read instead, of which more than two say no more than two.
pub fn rows_listed(n: usize, listing: &[u64], count: u64) -> Vec<Row> {
    if n == 0 {
        return vec![vec![]; count.min(2) as usize];
    }
    listing.chunks(n).map(<[u64]>::to_vec).collect()
}

pub fn check_listing(pool: &[u64], tables: &Tables, query: &Query, listing: &[u64], count: u64) -> Checked {
    match join_number(pool, tables, query, listing.len()) {
        0 => {
            let n = query.n as usize;
            let all = answers(pool, tables, query);
            answer(verdict(&query.order[..n], &all, &rows_listed(n, listing, count)))
        }
        number => Checked { number, ..Default::default() },
    }
}
