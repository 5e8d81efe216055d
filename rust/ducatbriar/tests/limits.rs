//! The binding's limits are those of the header, and the library's: each is the last that a call accepts.
use ducatbriar::limits::*;
use ducatbriar::{calls, Pool, Query, SeekStrategy, Table};

const HEADER: &str = include_str!("../../../include/ducatbriar.h");

#[test]
fn none_of_the_header_s_is_missing() {
    let named: Vec<_> =
        HEADER.lines().filter_map(|line| line.strip_prefix("#define DUCATBRIAR_MAX_")?.split(' ').next()).collect();
    assert_eq!(named, ["ARITY", "CAPACITY", "TABLES", "ATOMS", "VARIABLES"], "a limit of the header that the binding lacks");
}

#[test]
fn the_version_is_the_header_s() {
    assert!(HEADER.contains(&format!("#define DUCATBRIAR_VERSION \"{}\"", ducatbriar::VERSION)));
    let changes = include_str!("../../../CHANGELOG.md");
    let latest = changes.lines().find_map(|line| line.strip_prefix("## "));
    assert_eq!(latest, Some(ducatbriar::VERSION));
}

#[test]
fn refusals_name_them() {
    let meaning = |arity, capacity| Pool::new().build(arity, capacity, &[[0u64; 0]; 0]).unwrap_err().to_string();
    assert_eq!(meaning(MAX_ARITY + 1, 1), format!("refused with 1: the arity is 0 or over {MAX_ARITY}"));
    assert_eq!(meaning(1, MAX_CAPACITY + 1), format!("refused with 2: the capacity is 0 or over {MAX_CAPACITY}"));
}

/// A table at capacity with the longest listing: rows that start with different keys, and 20 digits in each key.
fn longest(pool: &mut Pool, arity: usize, capacity: usize) -> Table {
    let rows: Vec<Vec<u64>> = (0..capacity as u64).map(|i| vec![u64::MAX - i; arity]).collect();
    pool.build(arity, capacity, &rows).unwrap()
}

#[test]
fn the_longest_listing() {
    for arity in 1..=MAX_ARITY {
        for capacity in [1, 2, 9, 10, 11, 99, 100, 101, 1_000, 1_001, 10_000, 10_001] {
            let mut pool = Pool::new();
            let table = longest(&mut pool, arity, capacity);
            assert_eq!(pool.words().len(), words(arity, capacity));
            assert_eq!(pool.list(&table).unwrap().len(), listing(arity, capacity), "arity {arity}, capacity {capacity}");
        }
    }
    let mut pool = Pool::new();
    let table = longest(&mut pool, MAX_ARITY, MAX_CAPACITY);
    assert_eq!(pool.list(&table).unwrap().len(), listing(MAX_ARITY, MAX_CAPACITY));
}

/// Every set of up to three rows over a few keys, with those at the ends of a word among them.
#[test]
fn no_listing_is_longer() {
    let keys = [0, 9, 10, u64::MAX - 1, u64::MAX];
    let rows: Vec<[u64; 2]> = keys.iter().flat_map(|&x| keys.map(|y| [x, y])).collect();
    let mut greatest = 0;
    for a in &rows {
        for b in &rows {
            for c in &rows {
                let mut pool = Pool::new();
                let table = pool.build(2, 3, &[a, b, c]).unwrap();
                greatest = greatest.max(pool.list(&table).unwrap().len());
            }
        }
    }
    // Two keys of 20 digits and one of 2 are the most in layer 0.
    assert_eq!(greatest, listing(2, 3) - 18);
}

#[test]
fn an_empty_header_is_that_of_a_build_over_no_rows() {
    let mut pool = vec![0; words(MAX_ARITY, 4)];
    let built = calls::build(&mut [], &mut pool, 0, MAX_ARITY as u64, 4, calls::Kinds::default());
    assert_eq!((built.number, built.table), (0, calls::empty(0, MAX_ARITY as u64, 4)));
    assert!(calls::undamaged(&pool, built.table));
    // Outside the limits, and where its words do not lie in the pool, it is damaged.
    for (start, arity, capacity) in
        [(0, MAX_ARITY as u64 + 1, 1), (0, 0, 1), (0, 1, 0), (0, 1, MAX_CAPACITY as u64 + 1), (1, MAX_ARITY as u64, 4)]
    {
        assert!(!calls::undamaged(&pool, calls::empty(start, arity, capacity)));
    }
}

/// The number of a build of no rows.
fn built(arity: usize, capacity: usize) -> u64 {
    let mut pool = vec![0; words(arity, capacity)];
    calls::build(&mut [], &mut pool, 0, arity as u64, capacity as u64, calls::Kinds::default()).number
}

#[test]
fn of_tables() {
    assert_eq!([built(MAX_ARITY, 1), built(MAX_ARITY + 1, 1)], [0, 1]);
    assert_eq!([built(1, MAX_CAPACITY), built(1, MAX_CAPACITY + 1)], [0, 2]);
}

/// The number of a join of so many tables of one column: an atom over each variable, and over variable 0 for the atoms behind.
fn joined(variables: usize, atoms: usize, tables: usize) -> u64 {
    let mut pool = Pool::new();
    let tables: Vec<_> = (0..tables).map(|_| pool.build(1, 1, &[[7]]).unwrap()).collect();
    let over = |i: usize| if i < variables { i } else { 0 };
    let order: Vec<usize> = (0..variables).collect();
    let query = (0..atoms).fold(Query::new(&order), |query, i| query.atom(0, &[over(i)]));
    let answer = pool.join(SeekStrategy::Linear, &tables.iter().collect::<Vec<_>>(), &query);
    answer.map_or_else(|refusal| refusal.number(), |_| 0)
}

#[test]
fn of_joins() {
    assert_eq!([joined(MAX_VARIABLES, MAX_ATOMS, 1), joined(MAX_VARIABLES + 1, MAX_ATOMS, 1)], [0, 8]);
    assert_eq!([joined(1, MAX_ATOMS, 1), joined(1, MAX_ATOMS + 1, 1)], [0, 9]);
    assert_eq!([joined(1, 1, MAX_TABLES), joined(1, 1, MAX_TABLES + 1)], [0, 9]);
}
