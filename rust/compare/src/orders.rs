//! Tables rebuilt with their columns permuted: header, words of the second pool, layers and listing against kermit's build over the permuted rows and against
//! document 02's rules, permuted back, and refusals. And the two departments: one query in two orders over rebuilt tables, both against kermit, with the same set
//! of rows, each listing ascending in its own order.
use crate::case::{shorter, show_rows, smaller_rows, Case, Tally};
use crate::cursors::subsets;
use crate::damage::header_words;
use crate::joins::{self, Call, Graded, Joins};
use crate::kermit::trie;
use crate::model::Row;
use crate::model_orders::{self, permuted};
use crate::rng::Rng;
use crate::tables::{all_rows, distinct, marked, same_table, MOST};
use ducatbriar::calls::*;
use std::fmt;

/// A table, what is changed of it, and what a rebuild of it is handed.
#[derive(Clone, Debug)]
pub struct Rebuilt {
    arity: usize,
    rows: Vec<Row>,
    kinds: Kinds,
    /// Of the table that is rebuilt, and the words of its pool before it.
    room: (usize, usize),
    /// Which word, counted through header and pool, and what it becomes.
    changes: Vec<(usize, u64)>,
    columns: [u64; 8],
    /// Words of the second pool.
    into: usize,
    start: u64,
    capacity: u64,
}

impl fmt::Display for Rebuilt {
    fn fmt(&self, f: &mut fmt::Formatter) -> fmt::Result {
        writeln!(f, "arity {}, capacity and words before {:?}, grades {:?}", self.arity, self.room, self.kinds.grade)?;
        writeln!(f, "rows {}, words changed {:?}", show_rows(&self.rows), self.changes)?;
        write!(f, "columns {:?} into {} words, start {}, capacity {}", self.columns, self.into, self.start, self.capacity)
    }
}

/// The sequence that takes a permutation back.
fn inverse(columns: &[usize]) -> Vec<usize> {
    (0..columns.len()).map(|column| columns.iter().position(|&c| c == column).expect("a permutation")).collect()
}

/// In the call's words, with these numbers past the arity.
fn numbers(columns: &[usize], past: u64) -> [u64; 8] {
    std::array::from_fn(|i| columns.get(i).map_or(past, |&column| column as u64))
}

impl Rebuilt {
    /// All words of the pool are marked before the build.
    fn built(&self) -> (Vec<u64>, ColumnTrie) {
        let (capacity, before) = self.room;
        let mut pool = marked(before + 2 * self.arity * capacity + 1);
        let built = build(&mut self.rows.concat(), &mut pool, before as u64, self.arity as u64, capacity as u64, self.kinds);
        assert_eq!(built.number, 0, "the rows of a case fit its table");
        (pool, built.table)
    }

    /// Of a rebuild that is not refused: kermit's layers, and the first table again, with every word of its pool.
    fn accepted(&self, tally: &mut Tally, into: &[u64], table: ColumnTrie) -> Result<(), String> {
        let columns: Vec<usize> = self.columns[..self.arity].iter().map(|&column| column as usize).collect();
        let rows: Vec<Row> = self.rows.iter().map(|row| permuted(&columns, row)).collect();
        same_table(tally, into, table, &trie(self.arity, &rows), "after the rebuild")?;
        let (pool, first) = self.built();
        let mut again = marked(pool.len());
        let back = Columns { columns: numbers(&inverse(&columns), 7) };
        let answer = permute(into, table, back, &mut again, first.start, first.capacity);
        tally.same(answer, Built { number: 0, table: first }, || "answer of the rebuild back".into())?;
        tally.same(again, pool, || "pool after the rebuild back".into())
    }
}

impl Case for Rebuilt {
    fn run(&self, tally: &mut Tally) -> Result<(), String> {
        let (mut pool, mut table) = self.built();
        let mut words: Vec<&mut u64> = header_words(&mut table);
        words.extend(&mut pool);
        for &(i, word) in &self.changes {
            let len = words.len();
            *words[i % len] = word;
        }
        let columns = Columns { columns: self.columns };
        let (mut into, mut expected) = (marked(self.into), marked(self.into));
        let answer = permute(&pool, table, columns, &mut into, self.start, self.capacity);
        let model = model_orders::permute(&pool, table, columns, &mut expected, self.start, self.capacity);
        tally.same(answer, model, || "answer of the rebuild".into())?;
        tally.same(&into, &expected, || "second pool after the rebuild".into())?;
        if answer.number == 0 && self.changes.is_empty() {
            self.accepted(tally, &into, answer.table)?;
        }
        Ok(())
    }

    fn smaller(&self) -> Vec<Self> {
        let mut all: Vec<_> = shorter(&self.changes).into_iter().map(|changes| Rebuilt { changes, ..self.clone() }).collect();
        all.extend(smaller_rows(&self.rows).into_iter().map(|rows| Rebuilt { rows, ..self.clone() }));
        if self.kinds != Kinds::default() {
            all.push(Rebuilt { kinds: Kinds::default(), ..self.clone() });
        }
        if self.room != (self.rows.len().max(1), 0) {
            all.push(Rebuilt { room: (self.rows.len().max(1), 0), ..self.clone() });
        }
        all
    }
}

/// With room for the rows and one more on both sides, and some words around.
fn roomy(rows: &[Row], kinds: Kinds, columns: &[usize]) -> Rebuilt {
    let (arity, capacity) = (columns.len(), rows.len() + 1);
    Rebuilt {
        arity,
        rows: rows.to_vec(),
        kinds,
        room: (capacity, 1),
        changes: vec![],
        columns: numbers(columns, rows.len() as u64),
        into: 2 * arity * capacity + 3,
        start: 2,
        capacity: capacity as u64,
    }
}

/// Every permutation of so many columns.
fn permutations(count: usize) -> Vec<Vec<usize>> {
    let mut all = vec![vec![]];
    for column in 0..count {
        let put = |columns: &Vec<usize>, at: usize| [&columns[..at], &[column], &columns[at..]].concat();
        all = all.iter().flat_map(|columns| (0..=columns.len()).map(move |at| put(columns, at))).collect();
    }
    all
}

/// Every permutation of one to four columns, over every set of a few rows over few keys; which columns are grades goes round.
pub fn exhaustive() -> impl Iterator<Item = Rebuilt> {
    [(1, 3, 3), (2, 3, 4), (3, 2, 3), (4, 2, 2)].into_iter().flat_map(|(arity, keys, most)| {
        let permutations = permutations(arity);
        subsets(&all_rows(arity, keys), most).into_iter().enumerate().flat_map(move |(i, rows)| {
            let grade = std::array::from_fn(|column| i >> (column % 4) & 1 == 1);
            // Every second one just fits.
            let capacity = rows.len().max(1) as u64 + (i as u64 + 1) % 2;
            permutations.clone().into_iter().map(move |columns| Rebuilt { capacity, ..roomy(&rows, Kinds { grade }, &columns) })
        })
    })
}

/// Every list of numbers up to the arity, so that all that are no permutation are there, of up to three columns, with each number past the arity; and each of
/// a damaged table, a capacity of 0, a second pool that is a word too short and one row too few, alone and together: 6, 8, 2, 3, 5 in their sequence.
pub fn every_number() -> impl Iterator<Item = Rebuilt> {
    let lists = (1..=3usize).flat_map(|arity| {
        let count = (arity + 1).pow(arity as u32);
        (0..count).map(move |code| (0..arity).map(|i| code / (arity + 1).pow(i as u32) % (arity + 1)).collect::<Vec<_>>())
    });
    let columns = lists.flat_map(|list| {
        let rows: Vec<Row> = (0..2).map(|key| (0..list.len() as u64).map(|i| (key + i) % 2).collect()).collect();
        [0, 1, 2, 7, 8, u64::MAX]
            .map(|past| Rebuilt { columns: numbers(&list, past), ..roomy(&rows, Kinds::default(), &vec![0; list.len()]) })
    });
    let faults = (0..1 << 5).map(|chosen: usize| {
        let mut case =
            roomy(&[vec![1, 2], vec![3, 4]], Kinds { grade: [true, false, false, false, false, false, false, false] }, &[1, 0]);
        let with = |i: usize| chosen >> i & 1 == 1;
        if with(0) {
            // The count of rows.
            case.changes = vec![(3, 9)];
        }
        if with(1) {
            case.columns[1] = 1;
        }
        if with(2) {
            case.capacity = 0;
        }
        if with(4) && !with(2) {
            case.capacity = 1;
        }
        case.into = case.start as usize + 4 * case.capacity as usize - usize::from(with(3));
        case
    });
    columns.chain(faults)
}

pub fn random(rng: &mut Rng) -> Rebuilt {
    let arity = if rng.below(3) == 0 { 8 } else { rng.within(1, 8) };
    let (keys, count) = (rng.keys(), rng.pick(&[0, 1, 2, 5, 17, 40, 100]));
    let mut rows: Vec<Row> = (0..count).map(|_| rng.row(arity, keys)).collect();
    rows.sort();
    rows.dedup();
    let mut columns: Vec<usize> = (0..arity).collect();
    rng.shuffle(&mut columns);
    let mut case = roomy(&rows, rng.kinds(), &columns);
    case.room = (rows.len().max(1) + rng.below(3), rng.below(4));
    case.capacity = rows.len().max(1) as u64 + rng.below(3) as u64;
    (case.start, case.into) = (rng.below(4) as u64, 4 + 2 * arity * case.capacity as usize);
    let odd = [0, 1, 2, 7, 8, 9, MOST as u64, MOST as u64 + 1, 1 << 32, (1 << 63) - 1, 1 << 63, u64::MAX - 1, u64::MAX];
    match rng.below(16) {
        0 => case.start = rng.pick(&odd),
        1 => case.capacity = rng.pick(&odd),
        2 => case.capacity = rng.below(rows.len() + 1) as u64,
        3 => case.into = rng.below(case.into),
        4 => case.columns[rng.below(8)] = rng.pick(&odd),
        5 => case.columns[rng.below(8)] = rng.below(8) as u64,
        6 | 7 => case.changes = (0..rng.within(1, 2)).map(|_| (rng.below(200), rng.key(keys))).collect(),
        _ => (),
    }
    case
}

/// As many rows as a table can have, all first keys different or few of them, of two, three and eight columns.
pub fn large(rng: &mut Rng) -> Vec<Rebuilt> {
    let mut all = vec![];
    for arity in [2, 3, 8] {
        let rows = distinct(rng, arity, MOST);
        let mut columns: Vec<usize> = (0..arity).collect();
        columns.rotate_left(1);
        let mut case = roomy(&rows, rng.kinds(), &columns);
        (case.room, case.capacity, case.into) = ((MOST, 1), MOST as u64, 2 * arity * MOST + 3);
        all.push(Rebuilt { capacity: MOST as u64 - 1, ..case.clone() });
        all.push(case);
    }
    let rows: Vec<Row> = (0..MOST as u64).map(|i| vec![i, MOST as u64 - i, i % 7]).collect();
    for columns in [[1, 0, 2], [2, 1, 0]] {
        let mut case = roomy(&rows, rng.kinds(), &columns);
        (case.room, case.capacity, case.into) = ((MOST, 0), MOST as u64, 6 * MOST + 2);
        all.push(case);
    }
    all
}

// ---- one query in two orders

#[derive(Clone)]
pub struct Departments {
    first: Graded,
    /// The order of the second department, over the same variables.
    order: Vec<usize>,
}

impl fmt::Display for Departments {
    fn fmt(&self, f: &mut fmt::Formatter) -> fmt::Result {
        write!(f, "{}\nsecond order {:?}", self.first, self.order)
    }
}

/// The second department's query: the join as kermit is asked, over permuted rows, and the call, over tables that are rebuilt of the first's.
struct Second {
    joins: Joins,
    call: Call,
}

impl Departments {
    /// Each atom's list in the second order, and a table for it alone: rebuilt, also where the list stays.
    fn second(&self, first: &Call, tally: &mut Tally) -> Result<Second, String> {
        let base = &self.first.base;
        let mut joins = Joins { order: self.order.clone(), tables: vec![], atoms: vec![] };
        let mut call = Call { pool: vec![], tables: Tables::default(), query: first.query };
        for (place, &v) in call.query.order.iter_mut().zip(&self.order) {
            *place = v as u64;
        }
        for (i, (table, list)) in base.atoms.iter().enumerate() {
            let mut columns: Vec<usize> = (0..list.len()).collect();
            columns.sort_by_key(|&column| self.order.iter().position(|&v| v == list[column]));
            let old = first.tables.tables[*table];
            let start = call.pool.len();
            call.pool.extend(marked(2 * list.len() * old.capacity as usize));
            let numbers = Columns { columns: numbers(&columns, 0) };
            let answer = permute(&first.pool, old, numbers, &mut call.pool, start as u64, old.capacity);
            tally.same(answer.number, 0, || format!("the rebuild for atom {i}"))?;
            call.tables.tables[i] = answer.table;
            call.tables.count = i as u64 + 1;
            let (atom, variables) = (&mut call.query.atoms[i], permuted(&columns, &list.iter().map(|&v| v as u64).collect()));
            atom.table = i as u64;
            atom.variables[..list.len()].copy_from_slice(&variables);
            let (arity, rows) = &base.tables[*table];
            joins.tables.push((*arity, rows.iter().map(|row| permuted(&columns, row)).collect()));
            joins.atoms.push((i, variables.iter().map(|&v| v as usize).collect()));
        }
        Ok(Second { joins, call })
    }
}

/// All rows of a call that passes the checks.
fn rows(call: &Call) -> Vec<Row> {
    let n = call.query.n as usize;
    let mut window = vec![0; 64 * n];
    loop {
        let answer = join(SeekStrategy::default(), &call.pool, call.tables, call.query, &mut window);
        if answer.number != 12 {
            assert_eq!(answer.number, 0, "the query passes the checks");
            return window.chunks(n).take(answer.rows as usize).map(<[u64]>::to_vec).collect();
        }
        window.resize(8 * window.len(), 0);
    }
}

/// The rows, each as read in an order.
fn read_in(order: &[usize], rows: &[Row]) -> Vec<Row> {
    rows.iter().map(|row| permuted(order, row)).collect()
}

impl Case for Departments {
    fn run(&self, tally: &mut Tally) -> Result<(), String> {
        let first = self.first.base.call(&self.first.kinds());
        let Second { joins, call } = self.second(&first, tally)?;
        joins.run_call(&call, tally)?;
        let (mut ours, mut theirs) = (rows(&first), rows(&call));
        for (order, rows) in [(&self.first.base.order, &ours), (&self.order, &theirs)] {
            let ascends = read_in(order, rows).windows(2).all(|pair| pair[0] < pair[1]);
            tally.same(ascends, true, || format!("the listing ascends in {order:?}"))?;
        }
        ours.sort();
        theirs.sort();
        tally.same(theirs, ours, || "the second department's set of rows, and the first's".into())
    }

    fn smaller(&self) -> Vec<Self> {
        self.first.smaller().into_iter().map(|first| Departments { first, ..self.clone() }).collect()
    }
}

/// Every triangle of some small relations, and every path of three atoms over one, in each second order.
pub fn every_order() -> impl Iterator<Item = Departments> {
    let sides = vec![(0, vec![0, 1]), (1, vec![1, 2]), (2, vec![0, 2])];
    let some: Vec<_> = subsets(&all_rows(2, 2), 3).into_iter().filter(|rows| rows.len() > 1).collect();
    let tables = some.clone().into_iter().flat_map(move |r| {
        some.clone().into_iter().map(move |s| vec![(2, r.clone()), (2, s), (2, vec![vec![0, 0], vec![0, 1], vec![1, 0]])])
    });
    let triangles = tables.flat_map(move |tables| {
        let base = Joins { order: vec![0, 1, 2], tables, atoms: sides.clone() };
        permutations(3).into_iter().map(move |order| Departments { first: Graded { base: base.clone(), grades: vec![1] }, order })
    });
    let paths = permutations(4).into_iter().map(|order| {
        let tables = vec![(3, all_rows(3, 2).into_iter().filter(|row| row != &[1, 0, 1]).collect()), (2, all_rows(2, 2))];
        let atoms = vec![(0, vec![0, 1, 2]), (0, vec![1, 2, 3]), (1, vec![0, 3])];
        Departments { first: Graded { base: Joins { order: vec![0, 1, 2, 3], tables, atoms }, grades: vec![] }, order }
    });
    triangles.chain(paths)
}

pub fn departments(rng: &mut Rng) -> Departments {
    let first = joins::graded(rng);
    let mut order = first.base.order.clone();
    rng.shuffle(&mut order);
    Departments { first, order }
}
