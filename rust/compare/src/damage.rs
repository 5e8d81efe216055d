//! Damaged words: every call on small tables with one word or kind changed, and cursors at every place, against document 01's rules.
use crate::case::{shorter, show_rows, Case, Tally};
use crate::cursors::table;
use crate::model::{self, Row};
use crate::model_files;
use crate::rng::Rng;
use crate::tables::{distinct, MOST};
use ducatbriar::calls::*;
use ducatbriar::limits;
use std::fmt;

/// The words of a header.
pub fn header_words(t: &mut ColumnTrie) -> Vec<&mut u64> {
    let mut all = vec![&mut t.start, &mut t.arity, &mut t.capacity, &mut t.tuple_count];
    all.extend(&mut t.data_len);
    all.extend(&mut t.interval_len);
    all
}

const HEADER: usize = 20;

/// A small table with some words changed, the header's first, then the pool's; and with some columns, also past the arity, said to be grades.
#[derive(Clone)]
pub struct Damaged {
    pub arity: usize,
    pub rows: Vec<Row>,
    pub changes: Vec<(usize, u64)>,
    pub grades: Vec<usize>,
}

impl fmt::Display for Damaged {
    fn fmt(&self, f: &mut fmt::Formatter) -> fmt::Result {
        writeln!(f, "arity {}, rows {}", self.arity, show_rows(&self.rows))?;
        write!(
            f,
            "words changed {:?} (start, arity, capacity, count, data lengths, interval lengths, then the pool), grades {:?}",
            self.changes, self.grades
        )
    }
}

/// Words that a single change may put in the place of `word`.
pub fn others(word: u64) -> Vec<u64> {
    let mut all = vec![0, 1, 2, 3, 4, 5, 7, 8, 9, word.wrapping_add(1), word.wrapping_sub(1)];
    all.extend([model::MAX_CAPACITY, model::MAX_CAPACITY + 1, 1 << 32, (1 << 63) - 1, 1 << 63, u64::MAX - 1, u64::MAX]);
    all.sort();
    all.dedup();
    all.retain(|&other| other != word);
    all
}

impl Damaged {
    /// The table with its words changed.
    fn spoiled(&self) -> (Vec<u64>, ColumnTrie) {
        let (mut pool, mut t) = table(self.arity, &self.rows);
        self.grades.iter().for_each(|&column| t.grade[column] = true);
        let mut words = header_words(&mut t);
        words.extend(&mut pool);
        let len = words.len();
        self.changes.iter().for_each(|&(i, word)| *words[i % len] = word);
        (pool, t)
    }

    /// Tables with a change, a grade or a row less.
    fn fewer(&self) -> Vec<Damaged> {
        let changes = shorter(&self.changes).into_iter().map(|changes| Damaged { changes, ..self.clone() });
        let grades = shorter(&self.grades).into_iter().map(|grades| Damaged { grades, ..self.clone() });
        let rows = shorter(&self.rows).into_iter().map(|rows| Damaged { rows, ..self.clone() });
        changes.chain(grades).chain(rows).collect()
    }

    fn cursors(&self, t: ColumnTrie) -> Vec<ColumnTrieIter> {
        // Around the lists of a small table, and far outside.
        let numbers = |most: u64| (0..=most).chain([u64::MAX]);
        let longest = self.rows.len() as u64 + 1;
        numbers(t.arity.min(8) + 1)
            .flat_map(|depth| {
                numbers(longest).flat_map(move |interval_i| {
                    numbers(longest).map(move |slice_offset| ColumnTrieIter { depth, interval_i, slice_offset })
                })
            })
            .collect()
    }

    fn cursor_calls(&self, tally: &mut Tally, pool: &[u64], t: ColumnTrie) -> Result<(), String> {
        for i in self.cursors(t) {
            tally.same(i.key(pool, t), model::key(pool, t, i), || format!("key of {i:?}"))?;
            tally.same(i.next(pool, t), model::next(pool, t, i), || format!("next of {i:?}"))?;
            tally.same(i.at_end(pool, t), model::at_end(pool, t, i), || format!("at_end of {i:?}"))?;
            tally.same(i.open(pool, t), model::open(pool, t, i), || format!("open of {i:?}"))?;
            tally.same(i.up(pool, t), model::up(pool, t, i), || format!("up of {i:?}"))?;
            for strategy in SeekStrategy::ALL {
                for target in [0, 2, u64::MAX] {
                    let expected = model::seek(pool, t, i, strategy, target);
                    tally.same(i.seek(pool, t, strategy, target), expected, || format!("{strategy:?} seek {target} of {i:?}"))?;
                }
            }
        }
        Ok(())
    }
}

/// An insert of the tuple, and its removal, each from these words.
fn changes(tally: &mut Tally, pool: &[u64], t: ColumnTrie, tuple: &[u64]) -> Result<(), String> {
    let (mut left, mut expected) = (pool.to_vec(), pool.to_vec());
    let answer = insert(&mut left, t, tuple);
    tally.same(answer, model::insert(&mut expected, t, tuple), || format!("answer to insert {tuple:?}"))?;
    tally.same(left, expected, || format!("pool after insert {tuple:?}"))?;

    let (mut left, mut expected) = (pool.to_vec(), pool.to_vec());
    let answer = remove(&mut left, t, tuple);
    tally.same(answer, model::remove(&mut expected, t, tuple), || format!("answer to remove {tuple:?}"))?;
    tally.same(left, expected, || format!("pool after remove {tuple:?}"))
}

impl Case for Damaged {
    fn run(&self, tally: &mut Tally) -> Result<(), String> {
        let (pool, t) = self.spoiled();
        tally.same(undamaged(&pool, t), model::undamaged(&pool, t), || "undamaged".into())?;

        // 6 comes before 14: damaged tables are also listed and written into a few bytes.
        for room in [400, 5] {
            let mut text = vec![b'~'; room];
            let mut expected = text.clone();
            let answer = list(&pool, t, &mut text);
            tally.same(answer, model::list(&pool, t, &mut expected), || format!("answer of the listing into {room} bytes"))?;
            tally.same(text, expected, || format!("listing into {room} bytes"))?;

            let mut bytes = vec![b'~'; room];
            let mut expected = bytes.clone();
            let answer = write(&pool, t, &mut bytes);
            tally
                .same(answer, model_files::write(&pool, t, &mut expected), || format!("answer of the write into {room} bytes"))?;
            tally.same(bytes, expected, || format!("file in {room} bytes"))?;
        }

        for tuple in
            [vec![1; self.arity], vec![0; self.arity], self.rows.first().cloned().unwrap_or_default(), vec![9; self.arity + 1]]
        {
            changes(tally, &pool, t, &tuple)?;
        }

        let mut tables = Tables { count: 1, ..Default::default() };
        tables.tables[0] = t;
        let mut query = Query { n: self.arity as u64, atom_count: 1, ..Default::default() };
        query.atoms[0].len = query.n;
        for v in 0..self.arity {
            (query.order[v], query.atoms[0].variables[v]) = (v as u64, v as u64);
        }
        // The leapfrog of one atom makes no seek, which is what `model::join` says.
        for (strategy, size) in
            SeekStrategy::ALL.into_iter().flat_map(|strategy| [0, 1].map(|more| (strategy, 4 * self.arity + more)))
        {
            let (mut window, mut expected) = (vec![77; size], vec![77; size]);
            let answer = join(strategy, &pool, tables, query, &mut window);
            let joined = model::join(&pool, &tables, &query, &mut expected);
            tally.same(answer, joined, || format!("{strategy:?} join, window of {size}, answer"))?;
            tally.same(window, expected, || format!("{strategy:?} join, window of {size}, words"))?;
        }
        self.cursor_calls(tally, &pool, t)
    }

    fn smaller(&self) -> Vec<Self> {
        self.fewer()
    }
}

/// A larger table with some words changed: whether it is damaged, its file, and what an insert and a removal say of it.
#[derive(Clone)]
pub struct Spoiled(Damaged);

impl fmt::Display for Spoiled {
    fn fmt(&self, f: &mut fmt::Formatter) -> fmt::Result {
        self.0.fmt(f)
    }
}

impl Case for Spoiled {
    fn run(&self, tally: &mut Tally) -> Result<(), String> {
        let (pool, t) = self.0.spoiled();
        tally.same(undamaged(&pool, t), model::undamaged(&pool, t), || "undamaged".into())?;
        let mut bytes = vec![b'~'; limits::file(self.0.arity, self.0.rows.len())];
        let mut expected_bytes = bytes.clone();
        let answer = write(&pool, t, &mut bytes);
        tally.same(answer, model_files::write(&pool, t, &mut expected_bytes), || "answer of the write".into())?;
        tally.same(bytes, expected_bytes, || "file".into())?;
        let tuple = self.0.rows.last().cloned().unwrap_or_default();
        changes(tally, &pool, t, &tuple)
    }

    fn smaller(&self) -> Vec<Self> {
        self.0.fewer().into_iter().map(Spoiled).collect()
    }
}

/// Small tables, each word of header and pool changed to each of the others, and each column said to be a grade.
pub fn exhaustive() -> impl Iterator<Item = Damaged> {
    let tables: [(usize, &[&[u64]]); 6] = [
        (1, &[]),
        (1, &[&[1], &[3]]),
        (2, &[]),
        (2, &[&[1, 2], &[1, 3], &[2, 4]]),
        (2, &[&[1, 5], &[2, 0], &[2, 5], &[4, 1]]),
        (3, &[&[1, 2, 3], &[1, 2, 4], &[1, 3, 3], &[2, 2, 1]]),
    ];
    tables.into_iter().flat_map(|(arity, rows)| {
        let rows: Vec<Row> = rows.iter().map(|row| row.to_vec()).collect();
        let (mut pool, mut t) = table(arity, &rows);
        let mut words: Vec<u64> = header_words(&mut t).into_iter().map(|word| *word).collect();
        assert_eq!(words.len(), HEADER);
        words.append(&mut pool);
        let damaged = move |changes, grades| Damaged { arity, rows: rows.clone(), changes, grades };
        let graded: Vec<_> = (0..model::MAX).map(|column| damaged(vec![], vec![column])).collect();
        let changed = words.into_iter().enumerate().flat_map(move |(i, word)| {
            others(word).into_iter().map(|other| damaged(vec![(i, other)], vec![])).collect::<Vec<_>>()
        });
        graded.into_iter().chain(changed)
    })
}

/// Two to four words changed at once, of any small table.
pub fn random(rng: &mut Rng) -> Damaged {
    let arity = rng.within(1, 4);
    let count = rng.within(0, 5);
    let rows: Vec<Row> = (0..count).map(|_| (0..arity).map(|_| rng.below(4) as u64).collect()).collect();
    let (pool, _) = table(arity, &rows);
    let changes = (0..rng.within(2, 4))
        .map(|_| {
            let i = rng.below(HEADER + pool.len());
            let odd = others(0);
            let word = if rng.below(5) == 0 { rng.pick(&odd) } else { rng.below(6) as u64 };
            (i, word)
        })
        .collect();
    let grades = (0..rng.below(8) / 3).map(|_| rng.below(model::MAX)).collect();
    Damaged { arity, rows, changes, grades }
}

/// One or two words changed of a table with seven of eight of so many rows, so that groups have gaps and differ in length.
fn spoiled(rng: &mut Rng, arity: usize, count: usize) -> Spoiled {
    let rows = distinct(rng, arity, count);
    let rows = rows[..count - count / 8].to_vec();
    let (pool, t) = table(arity, &rows);
    let changes = (0..rng.within(1, 2))
        .map(|_| {
            // A word of some layer's two lists, and one that is near it.
            let d = rng.below(arity);
            let lists = [(0, t.data_len[d]), (t.capacity, t.interval_len[d])];
            let (from, len) = rng.pick(&lists);
            let at = (t.start + 2 * t.capacity * d as u64 + from) as usize + rng.below(len.max(1) as usize);
            let word = pool[at].wrapping_add(rng.within(0, 8) as u64).wrapping_sub(4);
            (HEADER + at, word)
        })
        .collect();
    Spoiled(Damaged { arity, rows, changes, grades: vec![] })
}

pub fn larger(rng: &mut Rng) -> Spoiled {
    let (arity, count) = (rng.within(1, 4), rng.within(1, 60));
    spoiled(rng, arity, count)
}

/// As many rows as a table can have.
pub fn large(rng: &mut Rng) -> Vec<Spoiled> {
    (0..12).map(|i| spoiled(rng, 1 + i % 3, MOST)).collect()
}
