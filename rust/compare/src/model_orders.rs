//! Document 02's rebuild with the columns permuted, written from its text and from nothing else.
use crate::model::{lies_in, limits, rows_of, store, undamaged, unfilled, Row};
use ducatbriar::calls::*;

/// The table's columns in their new sequence, if the numbers that count are a permutation of them.
fn permutation(t: ColumnTrie, columns: Columns) -> Option<Vec<usize>> {
    let numbers = &columns.columns[..t.arity as usize];
    (0..t.arity).all(|column| numbers.contains(&column)).then(|| numbers.iter().map(|&column| column as usize).collect())
}

/// A row with its words in the new sequence.
pub fn permuted(columns: &[usize], row: &Row) -> Row {
    columns.iter().map(|&column| row[column]).collect()
}

/// The new sequence, or the number of the first check that refuses.
fn checked(pool: &[u64], t: ColumnTrie, columns: Columns, into: usize, start: u64, capacity: u64) -> Result<Vec<usize>, u64> {
    if !undamaged(pool, t) {
        return Err(6);
    }
    let columns = permutation(t, columns).ok_or(8u64)?;
    if !limits(1, capacity) {
        return Err(2);
    }
    if !lies_in(into, start, t.arity, capacity) {
        return Err(3);
    }
    if t.tuple_count > capacity {
        return Err(5);
    }
    Ok(columns)
}

pub fn permute(pool: &[u64], t: ColumnTrie, columns: Columns, into: &mut [u64], start: u64, capacity: u64) -> Built {
    let columns = match checked(pool, t, columns, into.len(), start, capacity) {
        Err(number) => return Built { number, table: ColumnTrie::default() },
        Ok(columns) => columns,
    };
    let mut rows: Vec<Row> = rows_of(pool, t).iter().map(|row| permuted(&columns, row)).collect();
    rows.sort();
    let mut kinds = Kinds::default();
    kinds.grade.iter_mut().zip(&columns).for_each(|(grade, &column)| *grade = t.grade[column]);
    Built { number: 0, table: store(into, unfilled(start, t.arity, capacity, kinds), &rows) }
}
