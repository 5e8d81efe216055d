//! Builds and inserts: header, pool words, layers and listing after the build and after every insert.
use crate::case::{show_rows, smaller_rows, Case, Tally};
use crate::kermit::{keys, layers, trie};
use crate::model::{self, Row};
use crate::rng::Rng;
use ducatbriar::calls::*;
use oracle::{Cardinality, GallopingSeek, Relation};
use std::fmt;

#[derive(Clone)]
pub struct Grown {
    pub arity: usize,
    pub capacity: usize,
    /// Words of the pool before the table, and behind it.
    pub margins: (usize, usize),
    pub kinds: Kinds,
    pub built: Vec<Row>,
    pub inserted: Vec<Row>,
}

impl fmt::Display for Grown {
    fn fmt(&self, f: &mut fmt::Formatter) -> fmt::Result {
        writeln!(f, "arity {}, capacity {}, words before and behind {:?}", self.arity, self.capacity, self.margins)?;
        writeln!(f, "grades {:?}", self.kinds.grade)?;
        writeln!(f, "built from {}", show_rows(&self.built))?;
        write!(f, "inserted {}", show_rows(&self.inserted))
    }
}

/// A pool whose words can be told apart from keys and from each other.
pub fn marked(len: usize) -> Vec<u64> {
    (0..len as u64).map(|i| 0xd0ca_0000_0000_0000 + i).collect()
}

type Trie = oracle::ColumnTrie<GallopingSeek>;

/// The table's words, count and listing are kermit's.
pub fn same_table(tally: &mut Tally, pool: &[u64], t: ColumnTrie, trie: &Trie, when: &str) -> Result<(), String> {
    let listing = trie.to_string();
    tally.same(model::layers(pool, t), layers(&listing), || format!("layers {when}"))?;
    tally.same(t.tuple_count, trie.tuple_count() as u64, || format!("count {when}"))?;
    tally.same(undamaged(pool, t), true, || format!("undamaged {when}"))?;
    // Into a destination a little longer than the text, exactly as long, and one byte short.
    for spare in [3, 0, -1] {
        let mut text = vec![b'~'; listing.len().saturating_add_signed(spare)];
        let answer = list(pool, t, &mut text);
        let mut expected = vec![b'~'; text.len()];
        let len = if spare < 0 { 0 } else { listing.len() };
        expected[..len].copy_from_slice(&listing.as_bytes()[..len]);
        let number = if spare < 0 { 14 } else { 0 };
        tally
            .same(answer, Listed { number, len: len as u64 }, || format!("answer of the listing {when}, {spare} spare bytes"))?;
        tally.same(text, expected, || format!("listing {when}, {spare} spare bytes"))?;
    }
    Ok(())
}

impl Case for Grown {
    fn run(&self, tally: &mut Tally) -> Result<(), String> {
        let (arity, capacity, start) = (self.arity as u64, self.capacity as u64, self.margins.0 as u64);
        let mut pool = marked(self.margins.0 + 2 * self.arity * self.capacity + self.margins.1);
        let mut rows = self.built.concat();

        let (mut model_rows, mut model_pool) = (rows.clone(), pool.clone());
        let built = build(&mut rows, &mut pool, start, arity, capacity, self.kinds);
        let expected = model::build(&mut model_rows, &mut model_pool, start, arity, capacity, self.kinds);
        tally.same(built, expected, || "answer of the build".into())?;
        tally.same(&rows, &model_rows, || "rows after the build".into())?;
        tally.same(&pool, &model_pool, || "pool after the build".into())?;
        if built.number != 0 {
            return Ok(());
        }
        let mut trie: Trie = trie(self.arity, &self.built);
        same_table(tally, &pool, built.table, &trie, "after the build")?;

        let mut t = built.table;
        for (i, row) in self.inserted.iter().enumerate() {
            let when = format!("after insert {}", i + 1);
            let answer = insert(&mut pool, t, row);
            let expected = model::insert(&mut model_pool, t, row);
            tally.same(answer, expected, || format!("answer {when}"))?;
            tally.same(&pool, &model_pool, || format!("pool {when}"))?;
            t = answer.table;
            if answer.number == 0 {
                let count = trie.tuple_count();
                trie.insert(keys(row));
                tally.same(answer.is_new, trie.tuple_count() != count, || format!("new or not {when}"))?;
            }
            same_table(tally, &pool, t, &trie, &when)?;
        }
        Ok(())
    }

    fn smaller(&self) -> Vec<Self> {
        let mut all = vec![];
        if self.kinds != Kinds::default() {
            all.push(Grown { kinds: Kinds::default(), ..self.clone() });
        }
        if self.margins != (0, 0) {
            all.push(Grown { margins: (0, 0), ..self.clone() });
        }
        all.extend(smaller_rows(&self.inserted).into_iter().map(|inserted| Grown { inserted, ..self.clone() }));
        all.extend(smaller_rows(&self.built).into_iter().map(|built| Grown { built, ..self.clone() }));
        if self.arity > 1 {
            let cut = |rows: &[Row]| rows.iter().map(|row| row[..row.len().min(self.arity - 1)].to_vec()).collect();
            let (built, inserted) = (cut(&self.built), cut(&self.inserted));
            all.push(Grown { arity: self.arity - 1, built, inserted, ..self.clone() });
        }
        if self.capacity > 1 {
            all.extend([self.capacity / 2, self.capacity - 1].map(|capacity| Grown { capacity, ..self.clone() }));
        }
        all
    }
}

/// Every sequence of up to `most` rows, repeated ones too, over these rows.
pub fn sequences(rows: &[Row], most: usize) -> Vec<Vec<Row>> {
    let mut all = vec![vec![]];
    let mut last: Vec<Vec<Row>> = vec![vec![]];
    for _ in 0..most {
        last = last.iter().flat_map(|sequence| rows.iter().map(|row| [&sequence[..], &[row.clone()]].concat())).collect();
        all.extend(last.iter().cloned());
    }
    all
}

/// All rows of this arity over the keys 0 to keys - 1.
pub fn all_rows(arity: usize, keys: u64) -> Vec<Row> {
    (0..keys.pow(arity as u32)).map(|code| (0..arity).map(|i| code / keys.pow(i as u32) % keys).collect()).collect()
}

/// All relations over the keys 0 to 2 with arity 1 and 2 and up to four rows, in every order of inserting them, some or none of them built first. Where
/// their number is odd, all columns are asked to be grades.
pub fn exhaustive() -> impl Iterator<Item = Grown> {
    [1, 2].into_iter().flat_map(|arity| {
        sequences(&all_rows(arity, 3), 4).into_iter().flat_map(move |rows| {
            (0..=rows.len()).map(move |built| Grown {
                arity,
                capacity: 4,
                margins: (1, 1),
                kinds: Kinds { grade: [rows.len() % 2 == 1; 8] },
                built: rows[..built].to_vec(),
                inserted: rows[built..].to_vec(),
            })
        })
    })
}

pub fn random(rng: &mut Rng) -> Grown {
    let arity = rng.within(1, 8);
    let keys = rng.keys();
    let (built, inserted) = (rng.pick(&[0, 0, 1, 3, 10, 40]), rng.within(0, 12));
    let rows = |rng: &mut Rng, count: usize| -> Vec<Row> { (0..count).map(|_| rng.row(arity, keys)).collect() };
    let (built, mut inserted) = (rows(rng, built), rows(rng, inserted));
    for row in &mut inserted {
        match rng.below(40) {
            // A row that is there, for the most part; or one of another length.
            0..=4 if !built.is_empty() => *row = rng.pick(&built),
            5 => _ = row.pop(),
            6 => row.push(0),
            _ => (),
        }
    }
    // Room for all, for some, or not even for what is built; seldom as much as a table can have.
    let all = built.len() + inserted.len();
    let capacity = match rng.below(2000) {
        0 => MOST,
        1..=250 => rng.within(1, all + 1),
        251..=500 => built.len().max(1),
        _ => all + rng.within(1, 5),
    };
    Grown { arity, capacity, margins: (rng.below(4), rng.below(4)), kinds: rng.kinds(), built, inserted }
}

/// As many rows as a table can have.
pub const MOST: usize = model::MAX_CAPACITY as usize;

/// So many rows of this arity, all different, in no order.
pub fn distinct(rng: &mut Rng, arity: usize, count: usize) -> Vec<Row> {
    let base = (1u64..).find(|base| base.pow(arity as u32) >= count as u64).unwrap();
    let row = |code: u64| (0..arity).map(|i| 3 * (code / base.pow(i as u32) % base)).collect();
    let mut rows: Vec<Row> = (0..count as u64).map(row).collect();
    rng.shuffle(&mut rows);
    rows
}

/// At the limit of a table's rows: so many that are built, repeated ones among them, or one more.
fn many(rng: &mut Rng) -> Vec<Grown> {
    let mut all = vec![];
    for (arity, keys) in [(1, 70_000), (2, 300), (8, 4)] {
        for rows in [MOST, MOST + 1] {
            let built: Vec<Row> = (0..rows).map(|_| (0..arity).map(|_| rng.below(keys) as u64).collect()).collect();
            let inserted = vec![built[0].clone(), vec![99_999; arity]];
            all.push(Grown { arity, capacity: MOST, margins: (2, 2), kinds: rng.kinds(), built, inserted });
        }
    }
    for rows in [MOST, MOST + 1] {
        let (margins, kinds) = ((0, 0), Kinds::default());
        all.push(Grown { arity: 1, capacity: MOST, margins, kinds, built: vec![vec![7]; rows], inserted: vec![vec![7]] });
    }
    all
}

/// Tables that are full, or lack one row, and rows for them that are there or new: what doesn't fit gets 5.
fn full(rng: &mut Rng) -> Vec<Grown> {
    let mut all = vec![];
    for arity in [1, 2, 8] {
        for missing in [0, 1] {
            let mut built = distinct(rng, arity, MOST + 2);
            let new = built.split_off(MOST - missing);
            let inserted = [&built[0], &new[0], &built[1], &new[0], &new[1]].map(Row::clone).to_vec();
            all.push(Grown { arity, capacity: MOST, margins: (1, 1), kinds: rng.kinds(), built, inserted });
        }
    }
    all
}

/// A few large ones, at the limits.
pub fn large(rng: &mut Rng) -> Vec<Grown> {
    let mut all = many(rng);
    all.extend(full(rng));
    all
}

/// What a build is handed, any words: its number and what it leaves, by document 01's table of refusals.
#[derive(Clone, Debug)]
pub struct Refused {
    rows: Vec<u64>,
    pool: usize,
    start: u64,
    arity: u64,
    capacity: u64,
    kinds: Kinds,
}

impl fmt::Display for Refused {
    fn fmt(&self, f: &mut fmt::Formatter) -> fmt::Result {
        write!(f, "{self:?}")
    }
}

impl Case for Refused {
    fn run(&self, tally: &mut Tally) -> Result<(), String> {
        let (mut rows, mut pool) = (self.rows.clone(), marked(self.pool));
        let (mut model_rows, mut model_pool) = (rows.clone(), pool.clone());
        let answer = build(&mut rows, &mut pool, self.start, self.arity, self.capacity, self.kinds);
        let expected = model::build(&mut model_rows, &mut model_pool, self.start, self.arity, self.capacity, self.kinds);
        tally.same(answer, expected, || "answer of the build".into())?;
        tally.same(rows, model_rows, || "rows after the build".into())?;
        tally.same(pool, model_pool, || "pool after the build".into())?;
        tally.same(empty(self.start, self.arity, self.capacity), empty_model(self), || "empty header".into())
    }

    fn smaller(&self) -> Vec<Self> {
        let numbers = lower_each([self.start, self.arity, self.capacity]);
        let mut all: Vec<Refused> =
            crate::case::shorter(&self.rows).into_iter().map(|rows| Refused { rows, ..self.clone() }).collect();
        all.extend(numbers.into_iter().map(|n| Refused { start: n[0], arity: n[1], capacity: n[2], ..self.clone() }));
        all
    }
}

fn lower_each(words: [u64; 3]) -> Vec<Vec<u64>> {
    crate::case::lower(&words)
}

fn empty_model(r: &Refused) -> ColumnTrie {
    ColumnTrie { start: r.start, arity: r.arity, capacity: r.capacity, ..Default::default() }
}

pub fn refused(rng: &mut Rng) -> Refused {
    let odd = [0, 1, 2, 8, 9, MOST as u64, MOST as u64 + 1, 1 << 32, (1 << 63) - 1, 1 << 63, u64::MAX - 1, u64::MAX];
    let number = |rng: &mut Rng, most: usize| if rng.below(4) == 0 { rng.pick(&odd) } else { rng.below(most) as u64 };
    let pool = rng.below(60);
    let words = rng.below(14);
    Refused {
        rows: (0..words).map(|_| rng.below(3) as u64).collect(),
        pool,
        start: number(rng, 20),
        arity: number(rng, 4),
        capacity: number(rng, 8),
        kinds: rng.kinds(),
    }
}
