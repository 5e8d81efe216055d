//! Cursors on undamaged tables: every answer along a walk, against kermit's iterator and against document 01's rules.
use crate::case::{shorter, show_rows, smaller_rows, Case, Tally};
use crate::kermit::trie;
use crate::model::{self, Row};
use crate::rng::{Keys, Rng};
use crate::tables::{all_rows, distinct, marked, MOST};
use ducatbriar::calls::*;
use oracle::{taken, BinarySeek, Counted, GallopingSeek, LinearIterator, LinearSeek, TrieIterator};
use std::collections::HashMap;
use std::fmt;

#[derive(Clone, Copy, Debug)]
pub enum Move {
    Next,
    Seek(u64),
    Open,
    Up,
}

#[derive(Clone)]
pub struct Walk {
    pub arity: usize,
    pub rows: Vec<Row>,
    pub strategy: SeekStrategy,
    pub moves: Vec<Move>,
}

impl fmt::Display for Walk {
    fn fmt(&self, f: &mut fmt::Formatter) -> fmt::Result {
        writeln!(f, "arity {}, rows {}", self.arity, show_rows(&self.rows))?;
        write!(f, "{:?}, moves {:?}", self.strategy, self.moves)
    }
}

/// A table of these rows in a pool of its own, with room for one row more and plain columns.
pub fn table(arity: usize, rows: &[Row]) -> (Vec<u64>, ColumnTrie) {
    let capacity = rows.len() + 1;
    let mut pool = marked(2 * arity * capacity + 1);
    let built = build(&mut rows.concat(), &mut pool, 1, arity as u64, capacity as u64, Kinds::default());
    assert_eq!(built.number, 0, "the rows of a case fit its table");
    (pool, built.table)
}

/// Both cursors on their way.
struct Pair<'a, S: oracle::SeekStrategy> {
    pool: &'a [u64],
    t: ColumnTrie,
    strategy: SeekStrategy,
    ours: ColumnTrieIter,
    theirs: oracle::ColumnTrieIter<'a, Counted<S>>,
}

fn some(found: bool, key: u64) -> Option<usize> {
    found.then_some(key as usize)
}

impl<S: oracle::SeekStrategy> Pair<'_, S> {
    /// Both move, and answer the same.
    fn step(&mut self, step: Move, tally: &mut Tally, what: &dyn Fn() -> String) -> Result<(), String> {
        let (pool, t, ours) = (self.pool, self.t, self.ours);
        self.ours = match step {
            Move::Next => {
                let answer = ours.next(pool, t);
                tally.same(answer, model::next(pool, t, ours), || what() + " by the rules")?;
                tally.same((answer.number, some(answer.found, answer.key)), (0, self.theirs.next()), what)?;
                answer.iter
            }
            Move::Seek(target) => self.seek(target, tally, what)?,
            Move::Open => {
                let answer = ours.open(pool, t);
                tally.same(answer, model::open(pool, t, ours), || what() + " by the rules")?;
                tally.same((answer.number, answer.opened), (0, self.theirs.open()), what)?;
                answer.iter
            }
            Move::Up => {
                let answer = ours.up(pool, t);
                tally.same(answer, model::up(pool, t, ours), || what() + " by the rules")?;
                tally.same((answer.number, answer.risen), (0, self.theirs.up()), what)?;
                answer.iter
            }
        };
        Ok(())
    }

    fn seek(&mut self, target: u64, tally: &mut Tally, what: &dyn Fn() -> String) -> Result<ColumnTrieIter, String> {
        taken();
        let found = self.theirs.seek(target as usize);
        let probes = taken().1 as u64;
        let answer = self.ours.seek(self.pool, self.t, self.strategy, target);
        let expected = model::seek(self.pool, self.t, self.ours, self.strategy, target);
        tally.same(answer, expected, || what() + " by the rules")?;
        tally.same((answer.number, answer.found), (0, found), what)?;
        tally.same(answer.hit, self.theirs.key() == Some(target as usize), || what() + ", hit by kermit's key")?;
        if self.strategy == SeekStrategy::Linear {
            tally.same(answer.probes, probes, || what() + ", probes")?;
        }
        Ok(answer.iter)
    }

    /// Both stand on the same key, or at the end.
    fn stand(&self, tally: &mut Tally, what: &dyn Fn() -> String) -> Result<(), String> {
        let (pool, t, ours) = (self.pool, self.t, self.ours);
        let (key, end) = (ours.key(pool, t), ours.at_end(pool, t));
        tally.same(key, model::key(pool, t, ours), || what() + ", then key by the rules")?;
        tally.same(end, model::at_end(pool, t, ours), || what() + ", then at_end by the rules")?;
        tally.same((key.number, some(key.found, key.key)), (0, self.theirs.key()), || what() + ", then key")?;
        tally.same((end.number, end.at_end), (0, self.theirs.at_end()), || what() + ", then at_end")
    }
}

impl Walk {
    fn walk<S: oracle::SeekStrategy>(&self, tally: &mut Tally) -> Result<(), String> {
        let (pool, t) = table(self.arity, &self.rows);
        let trie = trie::<Counted<S>>(self.arity, &self.rows);
        let theirs = oracle::ColumnTrieIter::new(&trie);
        let mut pair = Pair { pool: &pool, t, strategy: self.strategy, ours: ColumnTrieIter::new(), theirs };
        for (i, &step) in self.moves.iter().enumerate() {
            let what = || format!("move {}, {step:?}", i + 1);
            pair.step(step, tally, &what)?;
            pair.stand(tally, &what)?;
        }
        Ok(())
    }
}

impl Case for Walk {
    fn run(&self, tally: &mut Tally) -> Result<(), String> {
        match self.strategy {
            SeekStrategy::Linear => self.walk::<LinearSeek>(tally),
            SeekStrategy::Binary => self.walk::<BinarySeek>(tally),
            SeekStrategy::Galloping => self.walk::<GallopingSeek>(tally),
        }
    }

    fn smaller(&self) -> Vec<Self> {
        let mut all: Vec<Walk> = shorter(&self.moves).into_iter().map(|moves| Walk { moves, ..self.clone() }).collect();
        all.extend(smaller_rows(&self.rows).into_iter().map(|rows| Walk { rows, ..self.clone() }));
        all
    }
}

/// Every subset of up to `most` of these rows.
pub fn subsets(rows: &[Row], most: usize) -> Vec<Vec<Row>> {
    let mut all: Vec<Vec<Row>> = vec![vec![]];
    for row in rows {
        let with: Vec<Vec<Row>> =
            all.iter().filter(|set| set.len() < most).map(|set| [&set[..], &[row.clone()]].concat()).collect();
        all.extend(with);
    }
    all
}

/// For each relation over the keys 0 to 2 with arity 1 and 2 and up to four rows, every move from every place that a cursor can reach.
pub fn exhaustive() -> impl Iterator<Item = Walk> {
    let relations = [1, 2].into_iter().flat_map(|arity| {
        let sets = subsets(&all_rows(arity, 3), 4);
        sets.into_iter().map(move |rows| (arity, rows))
    });
    relations.flat_map(|(arity, rows)| {
        let paths = reachable(arity, &rows);
        SeekStrategy::ALL.into_iter().flat_map(move |strategy| {
            let rows = rows.clone();
            paths.clone().into_iter().map(move |moves| Walk { arity, rows: rows.clone(), strategy, moves })
        })
    })
}

const MOVES: [Move; 7] = [Move::Next, Move::Open, Move::Up, Move::Seek(0), Move::Seek(1), Move::Seek(2), Move::Seek(3)];

/// A walk for each move from each place that can be reached: the shortest one there, then the move.
fn reachable(arity: usize, rows: &[Row]) -> Vec<Vec<Move>> {
    let (pool, t) = table(arity, rows);
    let place = |i: ColumnTrieIter| (i.depth, i.interval_i, i.slice_offset);
    let mut seen = HashMap::from([(place(ColumnTrieIter::new()), ())]);
    let mut queue = vec![(ColumnTrieIter::new(), vec![])];
    let mut walks = vec![];
    let mut next = 0;
    while next < queue.len() {
        let (iter, path) = queue[next].clone();
        next += 1;
        for step in MOVES {
            let after = match step {
                Move::Next => model::next(&pool, t, iter).iter,
                Move::Open => model::open(&pool, t, iter).iter,
                Move::Up => model::up(&pool, t, iter).iter,
                Move::Seek(target) => model::seek(&pool, t, iter, SeekStrategy::Linear, target).iter,
            };
            let walk = [&path[..], &[step]].concat();
            if seen.insert(place(after), ()).is_none() {
                queue.push((after, walk.clone()));
            }
            walks.push(walk);
        }
    }
    walks
}

pub fn random(rng: &mut Rng) -> Walk {
    let arity = rng.within(1, 8);
    let keys = rng.keys();
    let count = rng.pick(&[0, 1, 2, 5, 20, 100]);
    let rows: Vec<Row> = (0..count).map(|_| rng.row(arity, keys)).collect();
    let count = rng.within(1, 40);
    let moves = (0..count).map(|_| random_move(rng, &rows, keys)).collect();
    Walk { arity, rows, strategy: rng.pick(&SeekStrategy::ALL), moves }
}

/// A walk under each strategy over a table of the largest capacity, with one row less.
pub fn large(rng: &mut Rng) -> Vec<Walk> {
    let rows = distinct(rng, 2, MOST - 1);
    let mut walk = |strategy| {
        let moves = (0..20).map(|_| random_move(rng, &rows, Keys::Below(800))).collect();
        Walk { arity: 2, rows: rows.clone(), strategy, moves }
    };
    SeekStrategy::ALL.map(&mut walk).into()
}

/// Any move; a seek goes to any key, or to one of the rows'.
pub fn random_move(rng: &mut Rng, rows: &[Row], keys: Keys) -> Move {
    match rng.below(8) {
        0 | 1 => Move::Next,
        2 | 3 => Move::Up,
        4 => Move::Seek(rng.key(keys)),
        5 if !rows.is_empty() => {
            let row = rng.pick(rows);
            Move::Seek(rng.pick(&row))
        }
        _ => Move::Open,
    }
}
