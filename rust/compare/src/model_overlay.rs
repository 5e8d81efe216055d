//! Document 02's rules for a table laid over another, written from its text and from nothing else: what lookups and cursors must answer on any words.
//!
//! The states of the cursor are listed, not tested for: each stands beside the state of a cursor over a table built afresh from the rows that count, and a call
//! answers what that cursor answers (`model.rs`).
use crate::model::{self, Row};
use ducatbriar::calls::*;
use std::collections::{HashMap, HashSet};

/// "All of the school's, and those of the maker's whose first key the school's lacks", ascending.
pub fn counting(school: &[Row], maker: &[Row]) -> Vec<Row> {
    let owned: HashSet<u64> = school.iter().map(|row| row[0]).collect();
    let others = maker.iter().filter(|row| !owned.contains(&row[0]));
    let mut rows: Vec<Row> = school.iter().chain(others).cloned().collect();
    rows.sort();
    rows.dedup();
    rows
}

/// "Of the same arity and kinds", of two undamaged tables.
pub fn same_shape(school: ColumnTrie, maker: ColumnTrie) -> bool {
    school.arity == maker.arity && school.grade == maker.grade
}

/// 6 on either, then 17; else 0.
pub fn tables_number(school: Lent, maker: Lent) -> u64 {
    if [school, maker].iter().any(|lent| !model::undamaged(lent.pool, lent.table)) {
        6
    } else if !same_shape(school.table, maker.table) {
        17
    } else {
        0
    }
}

pub fn lookup(school: Lent, maker: Lent, key: u64) -> LookedUp {
    let none = |number| LookedUp { number, ..Default::default() };
    match tables_number(school, maker) {
        0 if school.table.arity < 2 => return none(1),
        0 => (),
        number => return none(number),
    }
    for (from_school, Lent { pool, table }) in [(true, school), (false, maker)] {
        let layers = model::layers(pool, table);
        if let Some(i) = layers[0].data.iter().position(|&first| first == key) {
            let (start, end) = model::group(&layers[1], i as u64).expect("an undamaged table");
            return LookedUp { number: 0, from_school, from: table.start + 2 * table.capacity + start, len: end - start };
        }
    }
    none(0)
}

/// The starts of the rows, `len` keys long, each once: the interval of depth `len` + 1 is a place among them.
fn starts(rows: &[Row], len: usize) -> Vec<&[u64]> {
    let mut all: Vec<&[u64]> = rows.iter().map(|row| &row[..len]).collect();
    all.dedup();
    all
}

/// The cursor at depth 1 of a table with these first keys, on its first key not below `present`, else at its end; at the root where there are none.
fn on_first(firsts: &[&[u64]], present: Option<u64>) -> ColumnTrieIter {
    if firsts.is_empty() {
        return ColumnTrieIter::default();
    }
    let passed = firsts.iter().filter(|first| present.is_none_or(|present| first[0] < present)).count();
    ColumnTrieIter { depth: 1, interval_i: 0, slice_offset: passed as u64 }
}

fn numbers(i: ColumnTrieIter) -> [u64; 3] {
    [i.depth, i.interval_i, i.slice_offset]
}

/// Two tables that passed 6 and 17: a table built afresh from the rows that count, and the states of both cursors, each beside the other.
struct States {
    pool: Vec<u64>,
    table: ColumnTrie,
    of_pair: HashMap<[[u64; 3]; 2], ColumnTrieIter>,
    of_fresh: HashMap<[u64; 3], LaidIter>,
}

impl States {
    fn new(school: &[Row], maker: &[Row], arity: usize) -> States {
        let rows = counting(school, maker);
        let capacity = rows.len().max(1);
        let mut pool = vec![0; 2 * arity * capacity];
        let table = model::store(&mut pool, model::unfilled(0, arity as u64, capacity as u64, Kinds::default()), &rows);
        let mut states = States { pool, table, of_pair: HashMap::new(), of_fresh: HashMap::new() };
        states.add(LaidIter::default(), ColumnTrieIter::default());
        let [school_firsts, maker_firsts, firsts] = [school, maker, &rows].map(|rows| starts(rows, 1));
        let places = firsts.iter().map(|first| Some(first[0])).chain((!rows.is_empty()).then_some(None));
        for present in places {
            let both = LaidIter { school: on_first(&school_firsts, present), maker: on_first(&maker_firsts, present) };
            states.add(both, on_first(&firsts, present));
            let Some(key) = present else { continue };
            let schools = school_firsts.contains(&&[key][..]);
            for (walks, fresh) in below(if schools { school } else { maker }, &rows, key, arity) {
                states.add(if schools { LaidIter { school: walks, ..both } } else { LaidIter { maker: walks, ..both } }, fresh);
            }
        }
        states
    }

    fn add(&mut self, pair: LaidIter, fresh: ColumnTrieIter) {
        self.of_pair.insert([numbers(pair.school), numbers(pair.maker)], fresh);
        self.of_fresh.insert(numbers(fresh), pair);
    }

    fn back(&self, fresh: ColumnTrieIter) -> LaidIter {
        self.of_fresh[&numbers(fresh)]
    }
}

/// Each place below a first key: the owner's cursor, and that over all rows that count.
fn below(owner: &[Row], rows: &[Row], key: u64, arity: usize) -> Vec<(ColumnTrieIter, ColumnTrieIter)> {
    let mut all = vec![];
    for depth in 2..=arity {
        let (own, fresh) = (starts(owner, depth - 1), starts(rows, depth - 1));
        let children = starts(owner, depth);
        for (i, start) in own.iter().enumerate().filter(|(_, start)| start[0] == key) {
            let j = fresh.iter().position(|other| other == start).expect("the owner's rows count");
            let count = children.iter().filter(|child| child.starts_with(start)).count();
            all.extend((0..=count as u64).map(|slice_offset| {
                let at = |i: usize| ColumnTrieIter { depth: depth as u64, interval_i: i as u64, slice_offset };
                (at(i), at(j))
            }));
        }
    }
    all
}

/// What the cursor's calls must answer over two tables.
pub struct Cursors<'a> {
    school: Lent<'a>,
    maker: Lent<'a>,
    /// Or the number of the check that the tables don't pass.
    states: Result<States, u64>,
}

impl<'a> Cursors<'a> {
    pub fn new(school: Lent<'a>, maker: Lent<'a>) -> Cursors<'a> {
        let rows = |lent: Lent| model::rows_of(lent.pool, lent.table);
        let states = match tables_number(school, maker) {
            0 => Ok(States::new(&rows(school), &rows(maker), school.table.arity as usize)),
            number => Err(number),
        };
        Cursors { school, maker, states }
    }

    /// Every state.
    pub fn states(&self) -> Vec<LaidIter> {
        self.states.as_ref().map_or(vec![], |states| states.of_fresh.values().copied().collect())
    }

    /// The states, and the one over the table built afresh that the pair stands for.
    fn check(&self, pair: LaidIter) -> Result<(&States, ColumnTrieIter), u64> {
        let states = self.states.as_ref().map_err(|&number| number)?;
        let fresh = states.of_pair.get(&[numbers(pair.school), numbers(pair.maker)]).ok_or(7u64)?;
        Ok((states, *fresh))
    }

    pub fn key(&self, pair: LaidIter) -> KeyAnswer {
        match self.check(pair) {
            Err(number) => KeyAnswer { number, ..Default::default() },
            Ok((states, fresh)) => model::key(&states.pool, states.table, fresh),
        }
    }

    pub fn at_end(&self, pair: LaidIter) -> EndAnswer {
        match self.check(pair) {
            Err(number) => EndAnswer { number, at_end: false },
            Ok((states, fresh)) => model::at_end(&states.pool, states.table, fresh),
        }
    }

    pub fn next(&self, pair: LaidIter) -> LaidNextAnswer {
        match self.check(pair) {
            Err(number) => LaidNextAnswer { number, iter: pair, ..Default::default() },
            Ok((states, fresh)) => {
                let NextAnswer { number, found, key, iter } = model::next(&states.pool, states.table, fresh);
                LaidNextAnswer { number, found, key, iter: states.back(iter) }
            }
        }
    }

    pub fn seek(&self, pair: LaidIter, strategy: SeekStrategy, target: u64) -> LaidSeekAnswer {
        match self.check(pair) {
            Err(number) => LaidSeekAnswer { number, iter: pair, ..Default::default() },
            Ok((states, fresh)) => {
                let SeekAnswer { number, found, hit, probes, iter } =
                    model::seek(&states.pool, states.table, fresh, strategy, target);
                let alone = |lent: Lent, i| model::seek(lent.pool, lent.table, i, strategy, target).probes;
                let both = || alone(self.school, pair.school) + alone(self.maker, pair.maker);
                let probes = if fresh.depth > 1 { probes } else { both() };
                LaidSeekAnswer { number, found, hit, probes, iter: states.back(iter) }
            }
        }
    }

    pub fn open(&self, pair: LaidIter) -> LaidOpenAnswer {
        match self.check(pair) {
            Err(number) => LaidOpenAnswer { number, iter: pair, opened: false },
            Ok((states, fresh)) => {
                let OpenAnswer { number, opened, iter } = model::open(&states.pool, states.table, fresh);
                LaidOpenAnswer { number, opened, iter: states.back(iter) }
            }
        }
    }

    pub fn up(&self, pair: LaidIter) -> LaidUpAnswer {
        match self.check(pair) {
            Err(number) => LaidUpAnswer { number, iter: pair, risen: false },
            Ok((states, fresh)) => {
                let UpAnswer { number, risen, iter } = model::up(&states.pool, states.table, fresh);
                LaidUpAnswer { number, risen, iter: states.back(iter) }
            }
        }
    }
}
