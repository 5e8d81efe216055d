//! Each number of refusal that the owned types can meet, and what the pool holds behind it.
use ducatbriar::limits::MAX_CAPACITY;
use ducatbriar::{calls, Cell, Kind, Laid, Pool, Query, Refusal, Rows, SeekStrategy, Table, Verdict};

const HEADER: &str = include_str!("../../../include/ducatbriar.h");

/// The name in capitals, as the header has it.
fn in_capitals(refusal: Refusal) -> String {
    let name = format!("{refusal:?}");
    let spaced = name.chars().flat_map(|c| ['_', c].into_iter().skip(usize::from(c.is_lowercase())));
    format!("DUCATBRIAR{}", spaced.collect::<String>().to_uppercase())
}

#[test]
fn names_numbers_and_texts_are_the_header_s() {
    for &refusal in Refusal::ALL {
        let name = in_capitals(refusal);
        assert!(HEADER.contains(&format!("    {name} = {}", refusal.number())), "{name}");
        let text = format!("    case {name}:\n        return \"{}\";", refusal.meaning());
        assert!(HEADER.contains(&text), "{text}");
        assert_eq!(Refusal::of(refusal.number()), Some(refusal));
    }
    // One more is for what is done.
    assert_eq!(HEADER.matches("    case DUCATBRIAR_").count(), Refusal::ALL.len() + 1);
    assert_eq!([0, 18].map(Refusal::of), [None; 2]);
}

const NO_ROWS: &[[u64; 2]] = &[];

fn number<T: std::fmt::Debug>(answer: Result<T, Refusal>) -> u64 {
    answer.unwrap_err().number()
}

/// A pool with the pairs (1, 2) and (2, 3).
fn pairs() -> (Pool, Table) {
    let mut pool = Pool::new();
    let table = pool.build(2, 2, &[[1, 2], [2, 3]]).unwrap();
    (pool, table)
}

/// What both engines answer.
fn joined(pool: &Pool, tables: &[&Table], query: &Query) -> Result<Rows, Refusal> {
    let rows = pool.join(SeekStrategy::Galloping, tables, query);
    assert_eq!(pool.plain_join(tables, query), rows, "the plain engine's");
    checked(pool, tables, query, &rows);
    rows
}

/// The checker refuses what a join refuses, accepts what it lists, and names the row that is missing or wrong.
fn checked(pool: &Pool, tables: &[&Table], query: &Query, rows: &Result<Rows, Refusal>) {
    let check = |listing: &[&[u64]]| pool.check_listing(tables, query, listing);
    let rows: Vec<&[u64]> = match rows {
        Err(refusal) => return assert_eq!(check(&[]), Err(*refusal)),
        Ok(rows) => rows.iter().collect(),
    };
    assert_eq!(check(&rows), Ok(Verdict::Accepted));
    for i in 0..rows.len() {
        assert_eq!(check(&[&rows[..i], &rows[i + 1..]].concat()), Ok(Verdict::Missing(rows[i].to_vec())));
        assert_eq!(check(&[&rows[..=i], &rows[i..]].concat()), Ok(Verdict::Wrong(i + 1)));
    }
}

fn join(query: &Query) -> Result<usize, Refusal> {
    let (pool, table) = pairs();
    joined(&pool, &[&table], query).map(|rows| rows.len())
}

/// Refused rebuilds leave the pool as it was; the sequence is 6, 8, 2, 5, and never 3.
#[test]
fn rebuilds() {
    let (mut pool, table) = pairs();
    let before = pool.words().to_vec();
    // In a pool without words every table is damaged.
    assert_eq!(number(Pool::new().permute(&table, &[0, 0], 0)), 6);
    for columns in [&[0, 0][..], &[1], &[], &[0, 2], &[0, 1, 2], &[1, 0, 0], &[usize::MAX, 0]] {
        assert_eq!(number(pool.permute(&table, columns, 0)), 8, "{columns:?}");
    }
    assert_eq!(number(pool.permute(&table, &[1, 0], 0)), 2);
    assert_eq!(number(pool.permute(&table, &[1, 0], MAX_CAPACITY + 1)), 2);
    assert_eq!(number(pool.permute(&table, &[1, 0], 1)), 5);
    assert_eq!(pool.words(), before);
    let turned = pool.permute(&table, &[1, 0], 2).unwrap();
    assert_eq!(pool.list(&turned).unwrap(), "LAYER 0\nData: [2, 3]\nInterval: [0]\nLAYER 1\nData: [1, 2]\nInterval: [0, 1]\n");
    assert_eq!(pool.rows(&table).unwrap().iter().collect::<Vec<_>>(), [[1, 2], [2, 3]]);
}

/// A grade goes where its column goes, so that a query which passed 15 passes it over rebuilt tables.
#[test]
fn kinds_of_rebuilds() {
    let mut pool = Pool::new();
    let kinds = [Kind::Grade, Kind::Plain, Kind::Plain];
    let slope = pool.build_with_kinds(&kinds, 2, &[[Cell::Grade(-60), 1.into(), 2.into()]]).unwrap();
    let turned = pool.permute(&slope, &[1, 2, 0], 2).unwrap();
    assert_eq!(turned.kinds(), [Kind::Plain, Kind::Plain, Kind::Grade]);
    let back = pool.permute(&turned, &[2, 0, 1], 1).unwrap();
    assert_eq!((back.kinds(), back.capacity()), (kinds.to_vec(), 1));
    assert_eq!(pool.rows(&back).unwrap(), pool.rows(&slope).unwrap());
}

/// Which atoms get a table of their own: those that go against the order and can be rebuilt.
#[test]
fn orders_followed() {
    let (mut pool, table) = pairs();
    let one = pool.build(1, 1, &[[2]]).unwrap();
    let tables = [&table, &one];
    let path = |order: &[usize]| Query::new(order).atom(0, &[0, 1]).atom(0, &[1, 2]).atom(1, &[1]);
    let expected = [(vec![0, 1, 2], 0), (vec![2, 1, 0], 2), (vec![1, 0, 2], 1), (vec![0, 2, 1], 1)];
    for (order, count) in expected {
        let (query, rebuilt) = pool.follow_order(&tables, &path(&order)).unwrap();
        assert_eq!(rebuilt.len(), count, "{order:?}");
        let all: Vec<&Table> = tables.into_iter().chain(&rebuilt).collect();
        assert_eq!(joined(&pool, &all, &query).unwrap().into_iter().collect::<Vec<_>>(), [[1, 2, 3]], "{order:?}");
    }
    // A variable twice, no variable of the query, another length, no such table, a laid-over atom: as they are, and refused.
    let words = pool.words().to_vec();
    let mut refused = |query: Query| {
        let (query, rebuilt) = pool.follow_order(&tables, &query).unwrap();
        assert!(rebuilt.is_empty());
        number(pool.join(SeekStrategy::Galloping, &tables, &query))
    };
    assert_eq!(refused(Query::new(&[0]).atom(0, &[0, 0])), 10);
    assert_eq!(refused(Query::new(&[1, 0]).atom(0, &[0, 9])), 10);
    assert_eq!(refused(Query::new(&[1, 0]).atom(1, &[0, 1])), 10);
    assert_eq!(refused(Query::new(&[1, 0]).atom(7, &[0, 1])), 9);
    assert_eq!(refused(Query::new(&[1, 0]).laid_over(0, 0, &[0, 1])), 10);
    assert_eq!(refused(Query::new(&[1; 9]).atom(0, &[0, 1])), 8);
    assert_eq!(pool.words(), words);
}

#[test]
fn builds() {
    let mut pool = Pool::new();
    assert_eq!(number(pool.build(0, 1, NO_ROWS)), 1);
    assert_eq!(number(pool.build(2, 0, NO_ROWS)), 2);
    assert_eq!(number(pool.build(2, MAX_CAPACITY + 1, NO_ROWS)), 2);
    // Three words and one: together they would be two rows.
    assert_eq!(number(pool.build(2, 2, &[&[1, 2, 3][..], &[4]])), 4);
    assert_eq!(number(pool.build(2, 1, &[[1, 2], [1, 2]])), 5);
    assert!(pool.words().is_empty());
}

#[test]
fn inserts() {
    let (mut pool, mut table) = pairs();
    let words = pool.words().to_vec();
    assert_eq!(number(pool.insert(&mut table, &[1])), 4);
    assert_eq!(number(pool.insert(&mut table, &[3, 3])), 5);
    assert_eq!(pool.insert(&mut table, &[2, 3]), Ok(false));
    assert_eq!((pool.words(), table.len()), (&words[..], 2));
}

#[test]
fn removals() {
    let (mut pool, mut table) = pairs();
    let (words, header) = (pool.words().to_vec(), table.header());
    assert_eq!(number(pool.remove(&mut table, &[1])), 4);
    assert_eq!(number(pool.remove(&mut table, &[1, 2, 3])), 4);
    assert_eq!(number(pool.remove(&mut table, &[])), 4);
    assert_eq!(pool.remove(&mut table, &[1, 3]), Ok(false));
    assert_eq!((pool.words(), table.header()), (&words[..], header));
}

/// A table at capacity takes a new row after a removal; without its last row it is as one of no rows, and takes rows again.
#[test]
fn room_after_removals() {
    let (mut pool, mut table) = pairs();
    assert_eq!(number(pool.insert(&mut table, &[3, 4])), 5);
    assert_eq!(pool.remove(&mut table, &[1, 2]), Ok(true));
    assert_eq!(pool.insert(&mut table, &[3, 4]), Ok(true));
    assert_eq!(number(pool.insert(&mut table, &[1, 2])), 5);
    assert_eq!(pool.remove(&mut table, &[2, 3]), Ok(true));
    assert_eq!(pool.remove(&mut table, &[3, 4]), Ok(true));
    assert_eq!(table.header(), calls::empty(0, 2, 2));
    assert_eq!(pool.remove(&mut table, &[3, 4]), Ok(false));
    assert_eq!(pool.insert(&mut table, &[5, 6]), Ok(true));
    assert_eq!(pool.rows(&table).unwrap().into_iter().collect::<Vec<_>>(), [[5, 6]]);
}

/// A key goes with the last row below it, at every depth; one that has others below it stays.
#[test]
fn parents_without_children_go() {
    let mut pool = Pool::new();
    let mut table = pool.build(3, 4, &[[1, 2, 3], [1, 2, 4], [1, 5, 6], [7, 8, 9]]).unwrap();
    let mut keys_left = |row: &[u64]| {
        assert_eq!(pool.remove(&mut table, row), Ok(true));
        let header = table.header();
        [header.data_len[0], header.data_len[1], header.data_len[2]]
    };
    assert_eq!(keys_left(&[1, 2, 3]), [2, 3, 3]);
    assert_eq!(keys_left(&[1, 2, 4]), [2, 2, 2]);
    assert_eq!(keys_left(&[1, 5, 6]), [1, 1, 1]);
}

#[test]
fn another_pool() {
    let (_, mut table) = pairs();
    let mut other = Pool::new();
    assert_eq!(number(other.insert(&mut table, &[1, 2])), 6);
    // Before 4.
    assert_eq!(number(other.remove(&mut table, &[1, 2])), 6);
    assert_eq!(number(other.remove(&mut table, &[1])), 6);
    assert_eq!(number(other.list(&table)), 6);
    assert_eq!(number(other.cursor(&table, SeekStrategy::Linear).open()), 6);
}

#[test]
fn joins() {
    assert_eq!(join(&Query::new(&[0, 1]).atom(0, &[0, 1])), Ok(2));
    assert_eq!(join(&Query::new(&[])), Ok(1));
    assert_eq!(number(join(&Query::new(&[0, 2]).atom(0, &[0, 1]))), 8);
    assert_eq!(number(join(&Query::new(&[0, 1, 2, 3, 4, 5, 6, 7, 8]))), 8);
    assert_eq!(number(join(&Query::new(&[0, 1]).atom(1, &[0, 1]))), 9);
    let nine = (0..9).fold(Query::new(&[0, 1]), |query, _| query.atom(0, &[0, 1]));
    assert_eq!(number(join(&nine)), 9);
    assert_eq!(number(join(&Query::new(&[0, 1]).atom(0, &[1, 0]))), 10);
    assert_eq!(number(join(&Query::new(&[0, 1, 2]).atom(0, &[0, 1]))), 11);
}

/// Two grades may be joined, and two plain columns; the check stands behind 11.
#[test]
fn kinds() {
    let mut pool = Pool::new();
    let slope = [[Cell::Grade(-60), Cell::Plain(1)], [Cell::Grade(0), Cell::Plain(2)]];
    let slope = pool.build_with_kinds(&[Kind::Grade, Kind::Plain], 2, &slope).unwrap();
    let plain = pool.build(2, 2, &[[1, 2], [2, 3]]).unwrap();
    let join = |query: &Query| joined(&pool, &[&slope, &plain], query).map(|rows| rows.len());
    assert_eq!(join(&Query::new(&[0, 1]).atom(0, &[0, 1]).atom(0, &[0, 1])), Ok(2));
    assert_eq!(join(&Query::new(&[0, 1, 2]).atom(0, &[0, 1]).atom(1, &[1, 2])), Ok(2));
    assert_eq!(number(join(&Query::new(&[0, 1]).atom(0, &[0, 1]).atom(1, &[0, 1]))), 15);
    assert_eq!(number(join(&Query::new(&[0, 1, 2]).atom(0, &[0, 1]).atom(1, &[0, 1]))), 11);
}

#[test]
fn kinds_stay() {
    let mut pool = Pool::new();
    let mut slope = pool.build_with_kinds(&[Kind::Plain, Kind::Grade], 2, &[[Cell::Plain(7), Cell::Grade(1)]]).unwrap();
    assert!(pool.insert_cells(&mut slope, &[Cell::Plain(7), Cell::Grade(-1)]).unwrap());
    assert_eq!(slope.kinds(), [Kind::Plain, Kind::Grade]);
    let rows = pool.rows(&slope).unwrap();
    assert_eq!(rows.kinds(), slope.kinds());
    let cells: Vec<_> = rows.cells().collect();
    assert_eq!(cells, [[Cell::Plain(7), Cell::Grade(-1)], [Cell::Plain(7), Cell::Grade(1)]]);
    assert!(pool.remove_cells(&mut slope, &[Cell::Plain(7), Cell::Grade(1)]).unwrap());
    assert!(pool.remove_cells(&mut slope, &[Cell::Plain(7), Cell::Grade(-1)]).unwrap());
    assert_eq!((slope.len(), slope.kinds()), (0, vec![Kind::Plain, Kind::Grade]));
    assert_eq!(number(pool.build_with_kinds(&[Kind::Grade; 9], 1, &[[Cell::Grade(0); 9]])), 1);
}

#[test]
#[should_panic(expected = "Plain(7) in column 0, which is Grade")]
fn a_cell_of_another_kind() {
    _ = Pool::new().build_with_kinds(&[Kind::Grade], 1, &[[Cell::Plain(7)]]);
}

#[test]
#[should_panic(expected = "Plain(7) in column 0, which is Grade")]
fn a_cell_of_another_kind_taken_out() {
    let mut pool = Pool::new();
    let mut table = pool.build_with_kinds(&[Kind::Grade], 1, &[[Cell::Grade(7)]]).unwrap();
    _ = pool.remove_cells(&mut table, &[Cell::Plain(7)]);
}

#[test]
fn rows() {
    let (mut pool, mut table) = pairs();
    assert_eq!(pool.rows(&table).unwrap().into_iter().collect::<Vec<_>>(), [[1, 2], [2, 3]]);
    let empty = pool.build(8, 1, &[[0u64; 8]; 0]).unwrap();
    assert!(pool.rows(&empty).unwrap().is_empty());
    assert_eq!(Pool::new().rows(&table), Err(Refusal::Damaged));
    assert_eq!(pool.insert(&mut table, &[3, 4]), Err(Refusal::NoRoom));
    // The empty row of a query without variables is a row.
    let rows = pool.join(SeekStrategy::Linear, &[], &Query::new(&[])).unwrap();
    assert_eq!((&rows).into_iter().len(), 1);
}

#[test]
fn small_windows() {
    let (pool, table) = pairs();
    let query = Query::new(&[0, 1]).atom(0, &[0, 1]);
    let mut window = [7; 2];
    let filled = pool.join_into(SeekStrategy::Linear, &[&table], &query, &mut window).unwrap();
    assert_eq!((filled.rows, filled.full, window), (1, true, [1, 2]));
    let mut text = [7; 5];
    assert_eq!((calls::list(pool.words(), table.header(), &mut text).number, text), (14, [7; 5]));
}

/// The plain engine's answer and words in windows of every length up to two rows and a word.
#[test]
fn windows_of_the_plain_engine() {
    let (pool, table) = pairs();
    let tables = calls::Tables { count: 1, tables: [table.header(); 8] };
    let mut query = calls::Query { n: 2, atom_count: 1, ..Default::default() };
    query.order[1] = 1;
    query.atoms[0] = calls::Atom { len: 2, variables: query.order, ..Default::default() };
    let expected =
        [(12, 0, [7; 5]), (16, 0, [7; 5]), (12, 1, [1, 2, 7, 7, 7]), (16, 0, [7; 5]), (0, 2, [1, 2, 2, 3, 7]), (16, 0, [7; 5])];
    for (len, expected) in expected.into_iter().enumerate() {
        let mut window = [7; 5];
        let answer = calls::plain_join(pool.words(), tables, query, &mut window[..len]);
        assert_eq!((answer.number, answer.rows, window), expected, "{len} words");
    }
}

/// 16 is told after what comes before it and before what comes behind; without variables what counts is how many rows there are.
#[test]
fn recorded_listings() {
    let (pool, table) = pairs();
    let query = Query::new(&[0, 1]).atom(0, &[0, 1]);
    let tables = [&table];
    for listing in [&[&[1, 2][..], &[2]][..], &[&[1], &[2, 2, 3]], &[&[]], &[&[1, 2, 2, 3]]] {
        assert_eq!(number(pool.check_listing(&tables, &query, listing)), 16, "{listing:?}");
        assert_eq!(number(pool.check_listing(&tables, &Query::new(&[0, 0]).atom(0, &[0, 1]), listing)), 8, "{listing:?}");
    }
    assert_eq!(pool.check_listing(&tables, &query, &[[1, 2], [2, 3], [2, 4]]), Ok(Verdict::Wrong(2)));
    assert_eq!(pool.check_listing(&tables, &query, &[[2, 3], [1, 2]]), Ok(Verdict::Wrong(1)));
    let one = Query::new(&[0]).atom(0, &[0]);
    assert_eq!(number(pool.check_listing(&tables, &one, &[[1, 2]])), 10);
    let none = |count: usize| pool.check_listing(&[], &Query::new(&[]), &vec![[0u64; 0]; count]);
    assert_eq!(
        [0, 1, 2, 3].map(none),
        [Ok(Verdict::Missing(vec![])), Ok(Verdict::Accepted), Ok(Verdict::Wrong(1)), Ok(Verdict::Wrong(1))]
    );
    assert_eq!(number(pool.check_listing(&[], &Query::new(&[]), &[[1]])), 16);
    let other = Pool::new();
    assert_eq!(number(other.check_listing(&tables, &query, &[[1, 2]])), 6);
    assert_eq!(number(other.check_listing(&tables, &query, &[[1]])), 16);
}

#[test]
fn windows_of_whole_rows() {
    let (pool, table) = pairs();
    let into = |table: &Table, order: &[usize], window: &mut [u64]| {
        pool.join_into(SeekStrategy::Linear, &[table], &Query::new(order).atom(0, &[0, 1]), window).map(|filled| filled.rows)
    };
    let mut window = [7; 61];
    assert_eq!(into(&table, &[0, 1], &mut window), Err(Refusal::PartRows));
    assert_eq!(window, [7; 61]);
    assert_eq!(into(&table, &[0, 1], &mut window[..60]), Ok(2));
    assert_eq!(window[..5], [1, 2, 2, 3, 7]);
    assert_eq!(into(&table, &[0, 1], &mut []), Ok(0));
    // After 11, and before 6.
    assert_eq!(into(&table, &[0, 1, 2], &mut window), Err(Refusal::FreeVariable));
    let words = Pool::new();
    let foreign = |window: &mut [u64]| {
        number(words.join_into(SeekStrategy::Linear, &[&table], &Query::new(&[0, 1]).atom(0, &[0, 1]), window))
    };
    assert_eq!((foreign(&mut window), foreign(&mut window[..60])), (16, 6));
    // Without variables every window is whole rows.
    let empty_row = pool.join_into(SeekStrategy::Linear, &[], &Query::new(&[]), &mut window).unwrap();
    assert_eq!((empty_row.rows, empty_row.full), (1, false));
}

/// 17 stands behind 6 and before 12; a plain atom's maker is not looked at; 10 and 15 read the school's table alone.
#[test]
fn laid_over() {
    let mut pool = Pool::new();
    let school = pool.build(2, 4, &[[1, 2], [2, 3]]).unwrap();
    let maker = pool.build(2, 4, &[[2, 9], [3, 9]]).unwrap();
    let three = pool.build(3, 4, &[[1, 2, 3]]).unwrap();
    let slope = pool.build_with_kinds(&[Kind::Grade, Kind::Plain], 2, &[[Cell::Grade(1), Cell::Plain(2)]]).unwrap();
    let tables = [&school, &maker, &three, &slope];
    let over = |school: usize, maker: usize| Query::new(&[0, 1]).laid_over(school, maker, &[0, 1]);
    let join = |query: &Query| joined(&pool, &tables, query).map(|rows| rows.into_iter().collect::<Vec<_>>());
    assert_eq!(join(&over(0, 1)).unwrap(), [[1, 2], [2, 3], [3, 9]]);
    assert_eq!(join(&over(1, 0)).unwrap(), [[1, 2], [2, 9], [3, 9]]);
    assert_eq!(join(&over(0, 0)).unwrap(), [[1, 2], [2, 3]]);
    assert_eq!(number(join(&over(0, 4))), 9);
    assert_eq!(number(join(&over(2, 0))), 10);
    assert_eq!([number(join(&over(0, 2))), number(join(&over(0, 3))), number(join(&over(3, 0)))], [17; 3]);
    // A grade of the maker's alone is no matter of 15's.
    assert_eq!(number(join(&over(0, 3).atom(1, &[0, 1]))), 17);
    assert_eq!(number(join(&over(3, 3).atom(1, &[0, 1]))), 15);
    let none = &mut [];
    assert_eq!(number(pool.join_into(SeekStrategy::Linear, &tables, &over(0, 2), none)), 17);
    assert!(pool.join_into(SeekStrategy::Linear, &tables, &over(0, 1), none).unwrap().full);
    assert_eq!(number(Pool::new().join(SeekStrategy::Linear, &tables, &over(0, 2))), 6);
}

#[test]
fn lookups_and_laid_over_cursors() {
    let mut pool = Pool::new();
    let school = pool.build(2, 4, &[[1, 2]]).unwrap();
    let one = pool.build(1, 4, &[[1]]).unwrap();
    let other = Pool::new();
    let laid = |school: &Table, maker: &Table| Laid::new((&pool, school), (&pool, maker)).lookup(1).map(<[u64]>::to_vec);
    assert_eq!(laid(&school, &school), Ok(vec![2]));
    assert_eq!(number(laid(&school, &one)), 17);
    assert_eq!(number(laid(&one, &one)), 1);
    let elsewhere = Laid::new((&pool, &school), (&other, &one));
    assert_eq!(number(elsewhere.lookup(1)), 6);
    assert_eq!(number(elsewhere.cursor(SeekStrategy::Linear).open()), 6);
    assert_eq!(number(Laid::new((&pool, &school), (&pool, &one)).cursor(SeekStrategy::Linear).open()), 17);
    // Both at the root or neither, where both tables have rows.
    let lent = calls::Lent { pool: pool.words(), table: school.header() };
    let at_top = calls::LaidIter::new().open(lent, lent).iter;
    assert_eq!(at_top.key(lent, lent), calls::KeyAnswer { number: 0, found: true, key: 1 });
    let half = calls::LaidIter { maker: Default::default(), ..at_top };
    assert_eq!(half.key(lent, lent).number, 7);
}
