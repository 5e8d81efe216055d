//! Triangles by windows of twenty rows: whole listings beside one join, and one call that goes on after many rows or few.
use crate::cycles::triangle_query;
use crate::data::{self, Set};
use crate::overlay::answers;
use crate::sides::{capacity, tables};
use crate::times::{head, medians, micros, side};
use ducatbriar::calls::{self, JoinedAfter, Query, SeekStrategy, Tables};
use std::hint::black_box;

const ROWS: usize = 20;
const STRATEGY: SeekStrategy = SeekStrategy::Galloping;

/// Three tables, and all rows of the triangle over them.
struct Given {
    pool: Vec<u64>,
    tables: Tables,
    query: Query,
    rows: Vec<u64>,
}

impl Given {
    fn new(set: &Set) -> Given {
        let relations: Vec<_> = (0..3).map(|seed| set.rows(seed)).collect();
        let (pool, tables) = tables(&relations, capacity(set.count));
        let query = triangle_query();
        let mut rows = vec![1; 3 * answers(STRATEGY, &pool, tables, query)];
        assert_eq!(calls::join(STRATEGY, &pool, tables, query, &mut rows).number, 0);
        Given { pool, tables, query, rows }
    }

    fn answers(&self) -> usize {
        self.rows.len() / 3
    }

    fn piece(&self, last: Option<[u64; 8]>, window: &mut [u64]) -> JoinedAfter {
        calls::join_after(STRATEGY, &self.pool, self.tables, self.query, last.is_some(), last.unwrap_or_default(), window)
    }

    /// The whole listing, a window at a time: each is handed on.
    fn pieces(&self, mut each: impl FnMut(&[u64])) {
        let (mut window, mut last, mut more) = ([1; 3 * ROWS], None, true);
        while more {
            let piece = self.piece(last, &mut window);
            each(&window[..3 * piece.rows as usize]);
            (last, more) = (Some(piece.last), piece.number == 12);
        }
    }

    /// What each call looks at before its first seek.
    fn checks(&self) -> bool {
        self.tables.tables[..3].iter().all(|&table| calls::undamaged(black_box(&self.pool), table))
    }

    /// After row `before` of the listing.
    fn after(&self, before: usize) -> [u64; 8] {
        let row = &self.rows[3 * (before - 1)..3 * before];
        std::array::from_fn(|i| row.get(i).copied().unwrap_or(0))
    }
}

fn whole(times: usize, set: &Set) {
    let given = Given::new(set);
    let (mut rows, mut calls_made) = (vec![], 0);
    given.pieces(|piece| (rows.extend_from_slice(piece), calls_made += 1).1);
    assert!(rows == given.rows, "the pieces are the listing");
    let sides = [
        side(|| calls::join(STRATEGY, &given.pool, given.tables, given.query, &mut rows)),
        side(|| given.pieces(|piece| _ = black_box(piece))),
        side(|| (0..calls_made).all(|_| given.checks())),
    ];
    let [one, windows, checks] = medians(times, sides);
    print!("| {} | {} | {} | {calls_made} |", set.count, set.name, given.answers());
    println!(" {} | {} | {:.2} | {} |", micros(one), micros(windows), windows / one, micros(checks));
}

/// One call, beside what a caller without it would do: list from the front, and pass over the rows before.
fn middle(times: usize, given: &Given, before: usize) {
    let (last, mut window, mut front) = (given.after(before), [1; 3 * ROWS], vec![1; 3 * (before + ROWS)]);
    let sides = [
        side(|| given.piece(Some(last), &mut window)),
        side(|| given.checks()),
        side(|| calls::join(STRATEGY, &given.pool, given.tables, given.query, &mut front)),
    ];
    let [call, checks, from_front] = medians(times, sides);
    assert!(window == front[3 * before..] && front == given.rows[..front.len()], "the same rows");
    println!("| {before} | {} | {} | {} |", micros(call), micros(checks), micros(from_front));
}

pub fn windows(times: usize) {
    let names = "rows,data,answers,calls,one join,by windows,by windows / one join,the calls' checks for damage alone";
    head(2, &names.split(',').collect::<Vec<_>>());
    let [uniform, _, skewed, _] = data::four(4096);
    let [few, many, most, large_skewed, star] = data::large();
    for set in [uniform, skewed, many, most, large_skewed, star, few] {
        whole(times, &set);
    }
    println!("\nOne call that goes on in the triangle over {}, {} rows each:\n", few.name, few.count);
    head(0, &["rows before", "a call of twenty rows", "its checks for damage alone", "from the front, one join"]);
    let given = Given::new(&few);
    [10, 1_000, 100_000].into_iter().for_each(|before| middle(times, &given, before));
}
