//! Triangles over tables laid over others, beside the same over tables built afresh from the rows that count.
use crate::cycles::triangle_query;
use crate::data::{self, Row};
use crate::sides::{capacity, tables};
use crate::times::{head, medians, micros, side};
use ducatbriar::calls::{self, Query, SeekStrategy};

/// Which first keys a school has rows of its own for.
const SCHOOLS: [(&str, fn(u64) -> bool); 3] =
    [("none", |_| false), ("one key in ten", |key| key % 10 == 0), ("every second key", |key| key % 2 == 0)];

/// The triangle with each atom laid over: the schools' tables are the first three, the makers' the next.
fn laid_over(mut query: Query) -> Query {
    for atom in &mut query.atoms[..3] {
        (atom.laid_over, atom.maker) = (true, atom.table + 3);
    }
    query
}

/// A school's rows are the maker's under its keys, so that the rows that count are the maker's.
fn line(times: usize, set: &data::Set, school: (&str, fn(u64) -> bool)) {
    let makers: Vec<Vec<Row>> = (0..3).map(|seed| set.rows(seed)).collect();
    let own = |rows: &Vec<Row>| rows.iter().copied().filter(|row| school.1(row[0])).collect::<Vec<_>>();
    let both: Vec<Vec<Row>> = makers.iter().map(own).chain(makers.iter().cloned()).collect();
    let room = capacity(set.count);
    let ((fresh_pool, fresh), (pool, laid)) = (tables(&makers, room), tables(&both, room));
    let (query, over) = (triangle_query(), laid_over(triangle_query()));
    for strategy in SeekStrategy::ALL {
        let mut window = vec![1; 3 * answers(strategy, &fresh_pool, fresh, query)];
        let mut laid_window = window.clone();
        let all = calls::join(strategy, &fresh_pool, fresh, query, &mut window);
        assert_eq!(calls::join(strategy, &pool, laid, over, &mut laid_window), all, "the same rows and seeks");
        let sides = [
            side(|| calls::join(strategy, &fresh_pool, fresh, query, &mut window)),
            side(|| calls::join(strategy, &pool, laid, over, &mut laid_window)),
        ];
        let [afresh, ours] = medians(times, sides);
        assert!(window == laid_window, "both windows are the same");
        print!("| {} | {} | {} | {strategy:?} | {} |", set.count, set.name, school.0, all.rows);
        println!(" {} | {} | {:.2} | {} |", micros(afresh), micros(ours), ours / afresh, all.seeks);
    }
}

/// How many rows a join has: a window grows until it holds them.
pub fn answers(strategy: SeekStrategy, pool: &[u64], tables: calls::Tables, query: Query) -> usize {
    let mut window = vec![1; 3 << 16];
    loop {
        let joined = calls::join(strategy, pool, tables, query, &mut window);
        if joined.number == 0 {
            return joined.rows as usize;
        }
        window.resize(4 * window.len(), 1);
    }
}

pub fn overlay(times: usize) {
    let names = "rows,data,the school has,strategy,answers,afresh,laid over,laid over / afresh,seeks";
    head(4, &names.split(',').collect::<Vec<_>>());
    let [uniform, _, skewed, _] = data::four(4096);
    let [few, many, ..] = data::large();
    for set in [uniform, skewed, few, many] {
        SCHOOLS.iter().for_each(|&school| line(times, &set, school));
    }
}
