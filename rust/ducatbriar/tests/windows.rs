//! A join a window at a time: what each call answers and writes, and the rows that the pieces make up.
use ducatbriar::calls::{self, Atom, JoinedAfter, Kinds, Tables};
use ducatbriar::{Cell, Kind, Pool, Query, Refusal, SeekStrategy, Table};

/// The rows (1, 5), (2, 3), (2, 4) by variable number, read in the order 1 0: (2, 3), (2, 4), (1, 5).
struct Three {
    pool: [u64; 12],
    tables: Tables,
    query: calls::Query,
}

fn three() -> Three {
    let mut three = Three { pool: [0; 12], tables: Tables { count: 1, ..Default::default() }, query: calls::Query::default() };
    let built = calls::build(&mut [3, 2, 4, 2, 5, 1], &mut three.pool, 0, 2, 3, Kinds::default());
    assert_eq!(built.number, 0);
    three.tables.tables[0] = built.table;
    (three.query.n, three.query.atom_count) = (2, 1);
    three.query.order[0] = 1;
    three.query.atoms[0] = Atom { len: 2, variables: three.query.order, ..Default::default() };
    three
}

/// Words behind the row that must not come back.
fn row(words: [u64; 2]) -> [u64; 8] {
    [words[0], words[1], 9, 9, 9, 9, 9, 9]
}

impl Three {
    fn call(&self, goes_on: bool, after: [u64; 8], window: &mut [u64]) -> JoinedAfter {
        let answers = SeekStrategy::ALL.map(|strategy| {
            let mut words = window.to_vec();
            let answer = calls::join_after(strategy, &self.pool, self.tables, self.query, goes_on, after, &mut words);
            (answer, words)
        });
        assert!(answers.iter().all(|answer| *answer == answers[0]), "the strategies agree");
        window.copy_from_slice(&answers[0].1);
        answers[0].0
    }

    /// Number, rows and last row, with a window of so many words, and those words.
    fn asked(&self, after: Option<[u64; 2]>, len: usize) -> (u64, u64, [u64; 2], Vec<u64>) {
        let mut window = vec![7; len];
        let answer = self.call(after.is_some(), row(after.unwrap_or([8, 8])), &mut window);
        assert_eq!(answer.last[2..], [0; 6], "words past n");
        (answer.number, answer.rows, [answer.last[0], answer.last[1]], window)
    }
}

/// Windows of every length up to three rows and a word, at a start: as the join's, with the last row that was written.
#[test]
fn a_start() {
    let three = three();
    let all = [2, 3, 2, 4, 1, 5];
    for len in 0..8 {
        let (number, rows, last, window) = three.asked(None, len);
        let mut joined = vec![7; len];
        let answer = calls::join(SeekStrategy::Galloping, &three.pool, three.tables, three.query, &mut joined);
        assert_eq!((number, rows, &window), (answer.number, answer.rows, &joined), "{len} words");
        let end = 2 * rows as usize;
        assert_eq!(last[..], if end == 0 { &[0, 0] } else { &all[end - 2..end] }[..], "{len} words");
    }
}

/// After an answer, after rows that are none, before the first row and behind the last one, into a window of one row.
#[test]
fn going_on() {
    let three = three();
    let (first, second, third) =
        ((12, 1, [2, 3], vec![2, 3]), (12, 1, [2, 4], vec![2, 4]), |number| (number, 1, [1, 5], vec![1, 5]));
    for (after, expected) in [
        ([0, 0], &first),
        ([1, 3], &first),
        ([u64::MAX, 2], &first),
        ([2, 3], &second),
        ([u64::MAX, 3], &second),
        ([0, 4], &second),
        ([2, 4], &third(0)),
        ([u64::MAX, 4], &third(0)),
        ([0, 5], &third(0)),
    ] {
        assert_eq!(three.asked(Some(after), 2), *expected, "after {after:?}");
    }
    for after in [[1, 5], [2, 5], [0, 6], [0, u64::MAX], [u64::MAX; 2]] {
        assert_eq!(three.asked(Some(after), 2), (0, 0, after, vec![7; 2]), "after {after:?}");
    }
}

/// A window without room for a row: 12, no rows and the given row back, if any remain; else all is done. Part of a row is 16.
#[test]
fn without_room() {
    let three = three();
    assert_eq!(three.asked(None, 0), (12, 0, [0, 0], vec![]));
    assert_eq!(three.asked(Some([2, 3]), 0), (12, 0, [2, 3], vec![]));
    assert_eq!(three.asked(Some([1, 5]), 0), (0, 0, [1, 5], vec![]));
    assert_eq!(three.asked(None, 1), (16, 0, [0, 0], vec![7]));
    assert_eq!(three.asked(Some([1, 5]), 3), (16, 0, [0, 0], vec![7; 3]));
}

/// The empty row comes at a start, and nothing comes after it.
#[test]
fn no_variables() {
    let mut three = three();
    three.query = calls::Query::default();
    for len in 0..3 {
        let mut window = vec![7; len];
        let start = three.call(false, [9; 8], &mut window);
        assert_eq!(start, JoinedAfter { number: 0, rows: 1, last: [0; 8] });
        assert_eq!(three.call(true, [9; 8], &mut window), JoinedAfter::default());
        assert_eq!(window, vec![7; len]);
    }
}

const ORDER: [u64; 8] = [0, 1, 0, 0, 0, 0, 0, 0];

fn atom(table: u64, maker: Option<u64>) -> Atom {
    Atom { table, len: 2, variables: ORDER, laid_over: maker.is_some(), maker: maker.unwrap_or(9) }
}

fn over(atoms: &[Atom]) -> calls::Query {
    let mut query = calls::Query { n: 2, order: ORDER, atom_count: atoms.len() as u64, ..Default::default() };
    query.atoms[..atoms.len()].copy_from_slice(atoms);
    query
}

/// A start without rows, and each refusal but 12: zeros, and the window as it was.
#[test]
fn zeros() {
    let mut pool = Pool::new();
    let pairs = pool.build(2, 4, &[[1, 2], [2, 3]]).unwrap();
    let none = pool.build(2, 4, &[[0u64; 2]; 0]).unwrap();
    let slope = pool.build_with_kinds(&[Kind::Grade, Kind::Plain], 2, &[[Cell::Grade(1), Cell::Plain(2)]]).unwrap();
    let mut all = Tables { count: 4, ..Default::default() };
    [&pairs, &none, &slope].iter().zip(&mut all.tables).for_each(|(table, place)| *place = table.header());
    all.tables[3] = calls::ColumnTrie { tuple_count: 9, ..pairs.header() };
    let cases = [
        (0, over(&[atom(1, None)])),
        (8, calls::Query { n: 9, ..over(&[atom(0, None)]) }),
        (9, over(&[atom(4, None)])),
        (10, over(&[Atom { len: 1, ..atom(0, None) }])),
        (11, over(&[])),
        (15, over(&[atom(0, None), atom(2, None)])),
        (6, over(&[atom(3, None)])),
        (17, over(&[atom(0, Some(2))])),
    ];
    for (number, query) in cases {
        let mut window = [7; 6];
        let start = calls::join_after(SeekStrategy::Galloping, pool.words(), all, query, false, [5; 8], &mut window);
        assert_eq!(start, JoinedAfter { number, ..Default::default() }, "a start");
        let on = calls::join_after(SeekStrategy::Galloping, pool.words(), all, query, true, [5; 8], &mut window);
        // A given row that nothing comes after comes back where nothing is refused.
        let last = if number == 0 { [5, 5, 0, 0, 0, 0, 0, 0] } else { [0; 8] };
        assert_eq!(on, JoinedAfter { number, rows: 0, last }, "going on");
        assert_eq!(window, [7; 6]);
    }
}

fn listed(pool: &Pool, tables: &[&Table], query: &Query) -> Vec<Vec<u64>> {
    pool.join(SeekStrategy::Galloping, tables, query).unwrap().into_iter().collect()
}

/// A thousand rows, which no first window of the binding's holds, by windows of every length up to twenty rows.
#[test]
fn pieces_make_up_the_listing() {
    let mut pool = Pool::new();
    let r = pool.build(2, 100, &(0..100).map(|i| [i / 10, i]).collect::<Vec<_>>()).unwrap();
    let query = Query::new(&[0, 2, 1]).atom(0, &[0, 1]).atom(0, &[0, 2]);
    let rows = listed(&pool, &[&r], &query);
    assert_eq!((rows.len(), &rows[11], &rows[999]), (1000, &vec![0, 1, 1], &vec![9, 99, 99]));
    assert_eq!(pool.plain_join(&[&r], &query).unwrap().into_iter().collect::<Vec<_>>(), rows);
    for strategy in SeekStrategy::ALL {
        for window in 0..=20 {
            let pieces = pool.windows(strategy, &[&r], &query, window).unwrap();
            assert_eq!(pieces.collect::<Vec<_>>(), rows, "{window} rows at a time");
        }
    }
    let mut all = pool.windows(SeekStrategy::Linear, &[&r], &query, 1000).unwrap();
    assert_eq!((all.by_ref().count(), all.next_row()), (1000, None));
}

#[test]
fn windows_of_few_rows_or_none() {
    let mut pool = Pool::new();
    let none = pool.build(1, 1, &[[0u64; 1]; 0]).unwrap();
    let query = Query::new(&[0]).atom(0, &[0]);
    assert_eq!(pool.windows(SeekStrategy::Linear, &[&none], &query, 20).unwrap().next(), None);
    let mut empty_row = pool.windows(SeekStrategy::Linear, &[], &Query::new(&[]), 20).unwrap();
    assert_eq!((empty_row.next(), empty_row.next()), (Some(vec![]), None));
    let refused = |query: &Query| pool.windows(SeekStrategy::Linear, &[&none], query, 20).err();
    assert_eq!(refused(&Query::new(&[0])), Some(Refusal::FreeVariable));
    assert_eq!(refused(&Query::new(&[0; 9])), Some(Refusal::BadOrder));
    let elsewhere = Pool::new();
    assert_eq!(elsewhere.windows(SeekStrategy::Linear, &[&none], &query, 20).err(), Some(Refusal::Damaged));
}

/// Rows that came or went between two calls: each call speaks of the tables as they stand.
#[test]
fn tables_that_change_between() {
    let mut pool = Pool::new();
    let mut bands = pool.build(1, 8, &[[10], [20], [30], [40]]).unwrap();
    let query = Query::new(&[0]).atom(0, &[0]);
    let mut window = [0; 2];
    let first = pool.join_after_into(SeekStrategy::Binary, &[&bands], &query, None, &mut window).unwrap();
    assert_eq!((first.rows, first.full, first.last[0], window), (2, true, 20, [10, 20]));
    for row in [5, 25] {
        assert!(pool.insert(&mut bands, &[row]).unwrap());
    }
    for row in [20, 30] {
        assert!(pool.remove(&mut bands, &[row]).unwrap());
    }
    let rest = pool.join_after_into(SeekStrategy::Binary, &[&bands], &query, Some(first.last), &mut window).unwrap();
    assert_eq!((rest.rows, rest.full, rest.last[0], window), (2, false, 40, [25, 40]));
}
