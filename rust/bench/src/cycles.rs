//! Joins around a cycle, triangles and squares: kermit, ours, and a merge written by hand, each into a window that holds all rows.
use crate::counters::Counter;
use crate::data::{self, Row, Set};
use crate::merge::{self, Neighbours};
use crate::sides::{capacity, tables, trie};
use crate::times::{head, medians, micros, side};
use ducatbriar::calls::{self, Atom, Query, SeekStrategy, Tables};
use oracle::{taken, BinarySeek, ColumnTrie, Counted, ExecutedQuery, GallopingSeek, JoinAlgo, LeapfrogTriejoin, LinearSeek};

/// A cycle of n variables: an atom over each neighbouring two of them.
struct Cycle {
    lists: &'static [[usize; 2]],
    merge: fn(&[Neighbours], &mut [u64]) -> usize,
}

const TRIANGLE: Cycle = Cycle { lists: &[[0, 1], [1, 2], [0, 2]], merge: merge::triangles };
const SQUARE: Cycle = Cycle { lists: &[[0, 1], [1, 2], [2, 3], [0, 3]], merge: merge::squares };

impl Cycle {
    fn n(&self) -> usize {
        self.lists.len()
    }

    fn theirs(&self) -> ExecutedQuery {
        let order: Vec<usize> = (0..self.n()).collect();
        ExecutedQuery::new(&order, &self.lists.iter().enumerate().map(|(i, list)| (i, list.to_vec())).collect::<Vec<_>>())
    }

    fn ours(&self) -> Query {
        let mut query = Query { n: self.n() as u64, atom_count: self.n() as u64, ..Default::default() };
        for (i, list) in self.lists.iter().enumerate() {
            query.order[i] = i as u64;
            query.atoms[i] = Atom { table: i as u64, len: 2, ..Default::default() };
            query.atoms[i].variables[..2].copy_from_slice(&list.map(|v| v as u64));
        }
        query
    }
}

pub fn triangle_query() -> Query {
    TRIANGLE.ours()
}

/// Rows for each atom, as the three sides hold them, and the counter if there is one.
struct Given<'a> {
    cycle: &'a Cycle,
    set: Set,
    relations: Vec<Vec<Row>>,
    neighbours: Vec<Neighbours>,
    pool: Vec<u64>,
    tables: Tables,
    counter: Option<&'a Counter>,
}

fn joined<S: oracle::SeekStrategy>(query: &ExecutedQuery, tries: &[ColumnTrie<S>], n: usize, window: &mut [usize]) {
    let mut places = window.chunks_exact_mut(n);
    LeapfrogTriejoin::join_for_each(query, tries, |row| places.next().unwrap().copy_from_slice(row));
}

impl Given<'_> {
    /// How many rows the join has, and how many seeks kermit makes for them.
    fn counted<S: oracle::SeekStrategy>(&self) -> (usize, usize) {
        let tries: Vec<_> = self.relations.iter().map(|rows| trie::<Counted<S>>(rows)).collect();
        taken();
        let mut rows = 0;
        LeapfrogTriejoin::join_for_each(&self.cycle.theirs(), &tries, |_| rows += 1);
        (rows, taken().0)
    }

    fn line<S: oracle::SeekStrategy>(&self, times: usize, strategy: SeekStrategy) {
        let n = self.cycle.n();
        let (count, seeks) = self.counted::<S>();
        let tries: Vec<_> = self.relations.iter().map(|rows| trie::<S>(rows)).collect();
        let (theirs, query) = (self.cycle.theirs(), self.cycle.ours());
        // Written once, so that no page of them is new to the machine when the time runs.
        let (mut their_window, mut window, mut merged) = (vec![1; n * count], vec![1; n * count], vec![1; n * count]);
        let sides = [
            side(|| joined(&theirs, &tries, n, &mut their_window)),
            side(|| {
                let joined = calls::join(strategy, &self.pool, self.tables, query, &mut window);
                assert_eq!((joined.number, joined.rows), (0, count as u64));
            }),
            side(|| assert_eq!((self.cycle.merge)(&self.neighbours, &mut merged), count)),
        ];
        let [kermit, ours, merge] = medians(times, sides);
        assert!(window == merged && their_window.iter().zip(&window).all(|(&a, &b)| a as u64 == b), "the three sides agree");
        print!("| {} | {} | {strategy:?} | {count} |", self.set.count, self.set.name);
        print!(" {} | {} | {} | {:.2} | {:.2} |", micros(kermit), micros(ours), micros(merge), ours / kermit, ours / merge);
        let instructions = |work: &mut dyn FnMut()| {
            self.counter.map_or(String::new(), |counter| format!(", {} instructions", counter.of(work) as usize / seeks.max(1)))
        };
        let each = |time: f64| format!("{:.1} ns", time / seeks.max(1) as f64);
        let kermit = each(kermit) + &instructions(&mut || joined(&theirs, &tries, n, &mut their_window));
        let ours = each(ours)
            + &instructions(&mut || assert_eq!(calls::join(strategy, &self.pool, self.tables, query, &mut window).number, 0));
        println!(" {seeks} | {kermit} | {ours} |");
    }
}

fn cycles(times: usize, cycle: &Cycle, sets: impl IntoIterator<Item = Set>) {
    let counter = Counter::open();
    if let Err(error) = &counter {
        println!("Instructions can't be counted on this machine: {error}.\n");
    }
    let names = "rows,data,strategy,answers,kermit,ours,merge,ours / kermit,ours / merge,seeks,kermit a seek,ours a seek";
    head(3, &names.split(',').collect::<Vec<_>>());
    for set in sets {
        let relations: Vec<_> = (0..cycle.n() as u64).map(|seed| set.rows(seed)).collect();
        let (pool, tables) = tables(&relations, capacity(set.count));
        let neighbours = Neighbours::of_each(&relations);
        let given = Given { cycle, set, relations, neighbours, pool, tables, counter: counter.as_ref().ok() };
        given.line::<LinearSeek>(times, SeekStrategy::Linear);
        given.line::<BinarySeek>(times, SeekStrategy::Binary);
        given.line::<GallopingSeek>(times, SeekStrategy::Galloping);
    }
}

pub fn triangles(times: usize) {
    cycles(times, &TRIANGLE, data::four(4096).into_iter().chain(data::large()));
}

/// The shapes with many answers have fewer rows here: a star of 50,000 would have 625,000,000.
pub fn squares(times: usize) {
    let [few, many, most, skewed, star] = data::large();
    cycles(
        times,
        &SQUARE,
        [Set { count: 10_000, ..few }, many, most, Set { count: 4_000, ..skewed }, Set { count: 2_000, ..star }],
    );
}
