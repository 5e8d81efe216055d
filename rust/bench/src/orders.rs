//! A rebuild with the columns permuted, beside what a caller without one does: the rows read out by a join of one atom, permuted, and built.
use crate::files::{table, ARITY, KEYS, ROWS};
use crate::sides::keys;
use crate::times::{head, medians, millis, side, timed};
use ducatbriar::calls::{self, Atom, ColumnTrie, Columns, Kinds, Query, SeekStrategy, Tables};
use ducatbriar::limits::{words, MAX_CAPACITY};
use oracle::{GallopingSeek, Relation, Tuples};

/// All rows of the one table.
fn all_rows() -> Query {
    let order = [0, 1, 2, 0, 0, 0, 0, 0];
    let mut query = Query { n: ARITY as u64, order, atom_count: 1, ..Default::default() };
    query.atoms[0] = Atom { len: ARITY as u64, variables: order, ..Default::default() };
    query
}

/// The rows out of the table, with their words in the new sequence.
fn read_out(pool: &[u64], tables: Tables, columns: [usize; ARITY], window: &mut [u64], given: &mut [u64]) {
    let joined = calls::join(SeekStrategy::Galloping, pool, tables, all_rows(), window);
    assert_eq!((joined.number, joined.rows), (0, ROWS as u64));
    for (to, row) in given.chunks_mut(ARITY).zip(window.chunks(ARITY)) {
        to.iter_mut().zip(columns).for_each(|(word, column)| *word = row[column]);
    }
}

/// Each side's time for a turn, in nanoseconds: the rebuild, the rows read out and built, and of these the build alone; kermit's build over the permuted rows.
fn times_of(times: usize, pool: &[u64], table: ColumnTrie, columns: [usize; ARITY]) -> [f64; 4] {
    let mut tables = Tables { count: 1, ..Default::default() };
    tables.tables[0] = table;
    let kinds = Kinds { grade: std::array::from_fn(|i| i < ARITY && table.grade[columns[i]]) };
    let numbers = Columns { columns: std::array::from_fn(|i| columns.get(i).map_or(0, |&column| column as u64)) };
    let capacity = MAX_CAPACITY as u64;
    let (mut into, mut other) = (vec![1; words(ARITY, MAX_CAPACITY)], vec![1; words(ARITY, MAX_CAPACITY)]);
    let (mut window, mut given) = (vec![1; ARITY * ROWS], vec![1; ARITY * ROWS]);
    read_out(pool, tables, columns, &mut window, &mut given);
    let rows = given.clone();
    let built = calls::build(&mut given, &mut other, 0, ARITY as u64, capacity, kinds);
    assert_eq!((calls::permute(pool, table, numbers, &mut into, 0, capacity), built.number), (built, 0));
    assert!(into == other, "every word is the same");
    let mut alone = other.clone();
    let batch = || Tuples::from_flat(ARITY, ROWS, keys(&rows));
    let sides = [
        side(|| assert_eq!(calls::permute(pool, table, numbers, &mut into, 0, capacity).number, 0)),
        side(|| {
            read_out(pool, tables, columns, &mut window, &mut given);
            assert_eq!(calls::build(&mut given, &mut other, 0, ARITY as u64, capacity, kinds).number, 0);
        }),
        Box::new(|| timed(|| rows.clone(), |mut rows| calls::build(&mut rows, &mut alone, 0, ARITY as u64, capacity, kinds))),
        Box::new(|| timed(batch, |batch| oracle::ColumnTrie::<GallopingSeek>::from_tuples(ARITY.into(), batch))),
    ];
    medians(times, sides)
}

pub fn permute(times: usize) {
    head(2, &["words below", "columns", "rebuild", "read out and built", "rebuild / that", "the build alone", "kermit's build"]);
    for (name, keys) in KEYS {
        let (pool, table) = table(keys);
        for columns in [[0, 1, 2], [1, 0, 2], [1, 2, 0], [2, 1, 0]] {
            let [rebuild, read_and_built, build, kermit] = times_of(times, &pool, table, columns);
            print!("| {name} | {columns:?} | {} | {} |", millis(rebuild), millis(read_and_built));
            println!(" {:.2} | {} | {} |", rebuild / read_and_built, millis(build), millis(kermit));
        }
    }
}
