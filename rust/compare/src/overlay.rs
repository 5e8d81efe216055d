//! Lookups and cursors in a table laid over another: against kermit's iterator over a table that it builds afresh from the rows that count, and, on any words and
//! from any pair of cursors, against document 02's rules.
use crate::case::{shorter, show_rows, smaller_rows, Case, Tally};
use crate::cursors::{random_move, subsets, Move};
use crate::damage::header_words;
use crate::kermit::trie;
use crate::model::Row;
use crate::model_overlay::{self, counting, Cursors};
use crate::rng::{Keys, Rng};
use crate::tables::{all_rows, marked, MOST};
use ducatbriar::calls::*;
use oracle::{BinarySeek, Counted, GallopingSeek, LinearIterator, LinearSeek, TrieIterator};
use std::fmt;

/// How two tables lie: each in a pool of its own, both in one, one table as both, or one as the front of the other's words, so many first keys long.
#[derive(Clone, Copy, Debug, PartialEq)]
pub enum Lie {
    TwoPools,
    OnePool,
    Same,
    SchoolInMaker(usize),
    MakerInSchool(usize),
}

/// A school's rows over a maker's. Where one table lies in the other, its own rows are not looked at.
#[derive(Clone)]
pub struct Two {
    pub arity: usize,
    pub school: Vec<Row>,
    pub maker: Vec<Row>,
    pub lie: Lie,
}

impl fmt::Display for Two {
    fn fmt(&self, f: &mut fmt::Formatter) -> fmt::Result {
        let rows = self.rows();
        write!(f, "arity {}, {:?}, school {}, maker {}", self.arity, self.lie, show_rows(&rows[0]), show_rows(&rows[1]))
    }
}

/// The rows of the first so many first keys.
pub fn front(rows: &[Row], firsts: usize) -> Vec<Row> {
    let mut sorted = rows.to_vec();
    sorted.sort();
    sorted.dedup();
    let mut keys: Vec<u64> = sorted.iter().map(|row| row[0]).collect();
    keys.dedup();
    sorted.into_iter().filter(|row| keys[..keys.len().min(firsts)].contains(&row[0])).collect()
}

/// The header of a table that has these rows of another, which lies in the same words.
pub fn front_header(pool: &[u64], t: ColumnTrie, firsts: usize) -> ColumnTrie {
    let mut cut = t;
    let mut keys = t.data_len[0].min(firsts as u64);
    for d in 0..t.arity as usize {
        cut.interval_len[d] = if d == 0 { keys.min(1) } else { cut.data_len[d - 1] };
        if d > 0 && cut.interval_len[d] < t.interval_len[d] {
            keys = pool[(t.start + 2 * t.capacity * d as u64 + t.capacity + cut.interval_len[d]) as usize];
        } else if d > 0 {
            keys = t.data_len[d];
        }
        cut.data_len[d] = keys;
    }
    cut.tuple_count = keys;
    cut
}

/// Two tables, and the pool of each; the second is empty where both lie in the first.
#[derive(Clone)]
struct Words {
    pools: [Vec<u64>; 2],
    one: bool,
    tables: [ColumnTrie; 2],
}

impl Words {
    fn school(&self) -> Lent<'_> {
        Lent { pool: &self.pools[0], table: self.tables[0] }
    }

    fn maker(&self) -> Lent<'_> {
        Lent { pool: &self.pools[usize::from(!self.one)], table: self.tables[1] }
    }
}

impl Two {
    /// The school's and the maker's.
    fn rows(&self) -> [Vec<Row>; 2] {
        let (school, maker) = (self.school.clone(), self.maker.clone());
        match self.lie {
            Lie::TwoPools | Lie::OnePool => [school, maker],
            Lie::Same => [school.clone(), school],
            Lie::SchoolInMaker(firsts) => [front(&maker, firsts), maker],
            Lie::MakerInSchool(firsts) => [school.clone(), front(&school, firsts)],
        }
    }

    fn counting(&self) -> Vec<Row> {
        let [school, maker] = self.rows();
        counting(&school, &maker)
    }

    /// The tables, each with room for one row more.
    fn words(&self) -> Words {
        let mut words = Words { pools: [marked(1), marked(1)], one: self.lie != Lie::TwoPools, tables: Default::default() };
        let add = |words: &mut Words, rows: &[Row], pool: usize| {
            let pool = &mut words.pools[pool];
            let (start, capacity) = (pool.len(), rows.len() + 1);
            pool.extend(marked(2 * self.arity * capacity));
            let built = build(&mut rows.concat(), pool, start as u64, self.arity as u64, capacity as u64, Kinds::default());
            assert_eq!(built.number, 0, "the rows of a case fit its table");
            built.table
        };
        words.tables = match self.lie {
            Lie::TwoPools => [add(&mut words, &self.school, 0), add(&mut words, &self.maker, 1)],
            Lie::OnePool => [add(&mut words, &self.school, 0), add(&mut words, &self.maker, 0)],
            Lie::Same => [add(&mut words, &self.school, 0); 2],
            Lie::SchoolInMaker(firsts) => {
                let maker = add(&mut words, &self.maker, 0);
                [front_header(&words.pools[0], maker, firsts), maker]
            }
            Lie::MakerInSchool(firsts) => {
                let school = add(&mut words, &self.school, 0);
                [school, front_header(&words.pools[0], school, firsts)]
            }
        };
        words
    }

    fn smaller(&self) -> Vec<Two> {
        let mut all: Vec<Two> = smaller_rows(&self.school).into_iter().map(|school| Two { school, ..self.clone() }).collect();
        all.extend(smaller_rows(&self.maker).into_iter().map(|maker| Two { maker, ..self.clone() }));
        all
    }
}

/// All calls from one pair, by the rules.
fn calls_from(words: &Words, rules: &Cursors, i: LaidIter, targets: &[u64], tally: &mut Tally) -> Result<(), String> {
    let (s, m) = (words.school(), words.maker());
    tally.same(i.key(s, m), rules.key(i), || format!("key of {i:?}"))?;
    tally.same(i.next(s, m), rules.next(i), || format!("next of {i:?}"))?;
    tally.same(i.at_end(s, m), rules.at_end(i), || format!("at_end of {i:?}"))?;
    tally.same(i.open(s, m), rules.open(i), || format!("open of {i:?}"))?;
    tally.same(i.up(s, m), rules.up(i), || format!("up of {i:?}"))?;
    for strategy in SeekStrategy::ALL {
        for &target in targets {
            let expected = rules.seek(i, strategy, target);
            tally.same(i.seek(s, m, strategy, target), expected, || format!("{strategy:?} seek {target} of {i:?}"))?;
        }
    }
    Ok(())
}

/// A lookup: its place by the rules, its words by kermit where the tables pass the checks.
fn look_up(words: &Words, fresh: Option<&oracle::ColumnTrie<LinearSeek>>, key: u64, tally: &mut Tally) -> Result<(), String> {
    let (s, m) = (words.school(), words.maker());
    let found = lookup(s, m, key);
    tally.same(found, model_overlay::lookup(s, m, key), || format!("lookup of {key} by the rules"))?;
    let Some(fresh) = fresh else { return Ok(()) };
    let mut theirs = oracle::ColumnTrieIter::new(fresh);
    let mut run = vec![];
    if theirs.open() && theirs.seek(key as usize) && theirs.key() == Some(key as usize) && theirs.open() {
        while let Some(key) = theirs.key() {
            run.push(key as u64);
            theirs.next();
        }
    }
    tally.same(found.run(s.pool, m.pool), &run[..], || format!("lookup of {key}"))
}

// ---- every pair

/// Every pair of small cursors, and every lookup of a small key.
#[derive(Clone)]
pub struct EveryPair(Two);

impl fmt::Display for EveryPair {
    fn fmt(&self, f: &mut fmt::Formatter) -> fmt::Result {
        self.0.fmt(f)
    }
}

impl Case for EveryPair {
    fn run(&self, tally: &mut Tally) -> Result<(), String> {
        let words = self.0.words();
        let rules = Cursors::new(words.school(), words.maker());
        let numbers = || 0..=3;
        let cursors: Vec<ColumnTrieIter> = numbers()
            .flat_map(|depth| {
                numbers().flat_map(move |interval_i| numbers().map(move |slice_offset| [depth, interval_i, slice_offset]))
            })
            .map(|[depth, interval_i, slice_offset]| ColumnTrieIter { depth, interval_i, slice_offset })
            .collect();
        for &school in &cursors {
            for &maker in &cursors {
                let i = LaidIter { school, maker };
                tally.same(i.key(words.school(), words.maker()), rules.key(i), || format!("key of {i:?}"))?;
            }
        }
        for i in rules.states() {
            calls_from(&words, &rules, i, &[0, 1, 2, 3, u64::MAX], tally)?;
        }
        let fresh = trie::<LinearSeek>(self.0.arity, &self.0.counting());
        let fresh = (self.0.arity > 1).then_some(&fresh);
        [0, 1, 2, 3, u64::MAX].into_iter().try_for_each(|key| look_up(&words, fresh, key, tally))
    }

    fn smaller(&self) -> Vec<Self> {
        self.0.smaller().into_iter().map(EveryPair).collect()
    }
}

/// All tables of arity 1 over the keys 0 to 2 and of arity 2 over 0 and 1 over one another, an empty school's, an empty maker's, both empty and equal ones among
/// them; those of arity 3 over few rows; and each as both, and over and under a front of itself.
pub fn exhaustive() -> impl Iterator<Item = EveryPair> {
    [(1, 3, 3), (2, 2, 4), (3, 2, 1)].into_iter().flat_map(|(arity, keys, most)| {
        let sets = subsets(&all_rows(arity, keys), most);
        let again = sets.clone();
        let of = move |school: &Vec<Row>, maker: &Vec<Row>, lie| {
            EveryPair(Two { arity, school: school.clone(), maker: maker.clone(), lie })
        };
        let within = sets.clone().into_iter().flat_map(move |rows| {
            [Lie::Same, Lie::SchoolInMaker(0), Lie::SchoolInMaker(1), Lie::MakerInSchool(0), Lie::MakerInSchool(1)]
                .map(|lie| of(&rows, &rows, lie))
        });
        let over = sets.into_iter().flat_map(move |school| {
            again.clone().into_iter().map(move |maker| {
                of(&school, &maker, if (school.len() + maker.len()) % 2 == 0 { Lie::TwoPools } else { Lie::OnePool })
            })
        });
        over.chain(within)
    })
}

// ---- walks

/// A walk from the root, beside kermit's over the rows that count; each key met is looked up too.
#[derive(Clone)]
pub struct LaidWalk {
    two: Two,
    strategy: SeekStrategy,
    moves: Vec<Move>,
}

impl fmt::Display for LaidWalk {
    fn fmt(&self, f: &mut fmt::Formatter) -> fmt::Result {
        write!(f, "{}\n{:?}, moves {:?}", self.two, self.strategy, self.moves)
    }
}

fn some(found: bool, key: u64) -> Option<usize> {
    found.then_some(key as usize)
}

impl LaidWalk {
    fn walk<S: oracle::SeekStrategy>(&self, tally: &mut Tally) -> Result<(), String> {
        let words = self.two.words();
        let (s, m) = (words.school(), words.maker());
        let counting = self.two.counting();
        let fresh = trie::<Counted<S>>(self.two.arity, &counting);
        let mut theirs = oracle::ColumnTrieIter::new(&fresh);
        // The states of large tables are too many to list.
        let rules = (counting.len() <= 200).then(|| Cursors::new(s, m));
        let mut ours = LaidIter::new();
        for (i, &step) in self.moves.iter().enumerate() {
            let what = || format!("move {}, {step:?}", i + 1);
            if let Some(rules) = &rules {
                let target = if let Move::Seek(target) = step { target } else { 0 };
                calls_from(&words, rules, ours, &[target], tally)?;
            }
            ours = match step {
                Move::Next => {
                    let answer = ours.next(s, m);
                    tally.same((answer.number, some(answer.found, answer.key)), (0, theirs.next()), what)?;
                    answer.iter
                }
                Move::Seek(target) => {
                    let answer = ours.seek(s, m, self.strategy, target);
                    tally.same((answer.number, answer.found), (0, theirs.seek(target as usize)), what)?;
                    tally.same(answer.hit, theirs.key() == Some(target as usize), || what() + ", hit by kermit's key")?;
                    answer.iter
                }
                Move::Open => {
                    let answer = ours.open(s, m);
                    tally.same((answer.number, answer.opened), (0, theirs.open()), what)?;
                    answer.iter
                }
                Move::Up => {
                    let answer = ours.up(s, m);
                    tally.same((answer.number, answer.risen), (0, theirs.up()), what)?;
                    answer.iter
                }
            };
            let (key, end) = (ours.key(s, m), ours.at_end(s, m));
            tally.same((key.number, some(key.found, key.key)), (0, theirs.key()), || what() + ", then key")?;
            tally.same((end.number, end.at_end), (0, theirs.at_end()), || what() + ", then at_end")?;
        }
        let fresh = (self.two.arity > 1).then(|| trie::<LinearSeek>(self.two.arity, &counting));
        self.moves.iter().try_for_each(|step| match step {
            Move::Seek(key) => look_up(&words, fresh.as_ref(), *key, tally),
            _ => Ok(()),
        })
    }
}

impl Case for LaidWalk {
    fn run(&self, tally: &mut Tally) -> Result<(), String> {
        match self.strategy {
            SeekStrategy::Linear => self.walk::<LinearSeek>(tally),
            SeekStrategy::Binary => self.walk::<BinarySeek>(tally),
            SeekStrategy::Galloping => self.walk::<GallopingSeek>(tally),
        }
    }

    fn smaller(&self) -> Vec<Self> {
        let mut all: Vec<LaidWalk> = shorter(&self.moves).into_iter().map(|moves| LaidWalk { moves, ..self.clone() }).collect();
        all.extend(self.two.smaller().into_iter().map(|two| LaidWalk { two, ..self.clone() }));
        all
    }
}

/// Rows dealt to a school and a maker in stretches of first keys, so that the runs alternate; some keys go to both, and some rows of one are the other's.
pub fn dealt(rng: &mut Rng, rows: &[Row]) -> [Vec<Row>; 2] {
    let mut sorted = rows.to_vec();
    sorted.sort();
    let mut sides = [vec![], vec![]];
    let (mut to, mut left, mut last) = (0, 0, None);
    for row in sorted {
        if last != Some(row[0]) && left == 0 {
            (to, left) = (rng.below(5), rng.within(1, 6));
        }
        left -= usize::from(last != Some(row[0]));
        last = Some(row[0]);
        match to {
            0 | 1 => sides[0].push(row),
            2 | 3 => sides[1].push(row),
            _ => match rng.below(3) {
                0 => sides.iter_mut().for_each(|side| side.push(row.clone())),
                side => sides[side - 1].push(row),
            },
        }
    }
    sides
}

pub fn lie(rng: &mut Rng) -> Lie {
    let firsts = rng.below(6);
    let all = [Lie::TwoPools, Lie::OnePool, Lie::Same, Lie::SchoolInMaker(firsts), Lie::MakerInSchool(firsts)];
    if rng.below(2) == 0 {
        all[rng.below(2)]
    } else {
        rng.pick(&all)
    }
}

fn two(rng: &mut Rng, keys: Keys) -> Two {
    let arity = rng.pick(&[1, 2, 2, 2, 3, 3, 4, 8]);
    let count = rng.pick(&[0, 1, 2, 5, 20, 100]);
    let rows: Vec<Row> = (0..count).map(|_| rng.row(arity, keys)).collect();
    let [school, maker] = match rng.below(6) {
        0 => [rows.clone(), vec![]],
        1 => [vec![], rows],
        2 => [rows.clone(), rows],
        _ => dealt(rng, &rows),
    };
    Two { arity, school, maker, lie: lie(rng) }
}

pub fn random(rng: &mut Rng) -> LaidWalk {
    let keys = rng.keys();
    let two = two(rng, keys);
    let rows = two.counting();
    let count = rng.within(1, 40);
    let moves = (0..count).map(|_| random_move(rng, &rows, keys)).collect();
    LaidWalk { two, strategy: rng.pick(&SeekStrategy::ALL), moves }
}

/// A walk under each strategy over as many rows as a table can have, in runs that alternate.
pub fn large(rng: &mut Rng) -> Vec<LaidWalk> {
    let rows = crate::tables::distinct(rng, 2, MOST - 1);
    let [school, maker] = dealt(rng, &rows);
    let mut walk = |strategy| {
        let moves = (0..20).map(|_| random_move(rng, &rows, Keys::Below(800))).collect();
        LaidWalk { two: Two { arity: 2, school: school.clone(), maker: maker.clone(), lie: Lie::OnePool }, strategy, moves }
    };
    SeekStrategy::ALL.map(&mut walk).into()
}

// ---- damaged words

/// Two tables with some words and kinds changed: the numbers in their sequence, and whatever else the words say.
#[derive(Clone)]
pub struct LaidDamaged {
    two: Two,
    /// Which word, counted through the two headers and the pools; and what it becomes.
    changes: Vec<(usize, u64)>,
    /// Table and column of each kind that becomes the other one.
    kinds: Vec<(usize, usize)>,
    pairs: Vec<LaidIter>,
}

impl fmt::Display for LaidDamaged {
    fn fmt(&self, f: &mut fmt::Formatter) -> fmt::Result {
        write!(f, "{}\nwords changed {:?}, kinds changed {:?}", self.two, self.changes, self.kinds)
    }
}

impl Case for LaidDamaged {
    fn run(&self, tally: &mut Tally) -> Result<(), String> {
        let mut words = self.two.words();
        self.kinds.iter().for_each(|&(table, column)| words.tables[table].grade[column] ^= true);
        let mut all: Vec<&mut u64> = words.tables.iter_mut().flat_map(header_words).collect();
        all.extend(words.pools.iter_mut().flatten());
        for &(i, word) in &self.changes {
            let len = all.len();
            *all[i % len] = word;
        }
        let rules = Cursors::new(words.school(), words.maker());
        for &i in &self.pairs {
            calls_from(&words, &rules, i, &[0, 2], tally)?;
        }
        (0..4).try_for_each(|key| look_up(&words, None, key, tally))
    }

    fn smaller(&self) -> Vec<Self> {
        let mut all: Vec<LaidDamaged> =
            shorter(&self.changes).into_iter().map(|changes| LaidDamaged { changes, ..self.clone() }).collect();
        all.extend(shorter(&self.kinds).into_iter().map(|kinds| LaidDamaged { kinds, ..self.clone() }));
        all.extend(shorter(&self.pairs).into_iter().map(|pairs| LaidDamaged { pairs, ..self.clone() }));
        all.extend(self.two.smaller().into_iter().map(|two| LaidDamaged { two, ..self.clone() }));
        all
    }
}

const HEADERS: usize = 40;

pub fn damaged(rng: &mut Rng) -> LaidDamaged {
    let keys = Keys::Below(4);
    let two = two(rng, keys);
    let changes = (0..rng.below(3))
        .map(|_| {
            let i = if rng.below(2) == 0 { rng.below(HEADERS) } else { rng.below(400) };
            let odd = [u64::MAX, 1 << 63, 1 << 32, 9, 8, 7];
            (i, if rng.below(4) == 0 { rng.pick(&odd) } else { rng.below(6) as u64 })
        })
        .collect();
    let kinds = (0..rng.below(6) / 3).map(|_| (rng.below(2), rng.below(4))).collect();
    let mut cursor = || [(); 3].map(|()| rng.below(4) as u64);
    let mut pairs = vec![LaidIter::new(), LaidIter { school: on_first(0), maker: on_first(0) }];
    for _ in 0..6 {
        let [school, maker] =
            [cursor(), cursor()].map(|[depth, interval_i, slice_offset]| ColumnTrieIter { depth, interval_i, slice_offset });
        pairs.push(LaidIter { school, maker });
    }
    LaidDamaged { two, changes, kinds, pairs }
}

fn on_first(passed: u64) -> ColumnTrieIter {
    ColumnTrieIter { depth: 1, interval_i: 0, slice_offset: passed }
}
