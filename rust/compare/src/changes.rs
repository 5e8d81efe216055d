//! Sequences of inserts and removals: after each the answer, every pool word, the layers and the listing, against a plain set of rows, the rules of
//! documents 01 and 02, and kermit's build over that set. kermit has no removal.
use crate::case::{lower, shorter, show_rows, smaller_rows, Case, Tally};
use crate::cursors::subsets;
use crate::kermit::trie;
use crate::model::{self, Row};
use crate::rng::{Keys, Rng};
use crate::tables::{all_rows, distinct, marked, same_table, MOST};
use ducatbriar::calls::*;
use std::collections::BTreeSet;
use std::fmt;

#[derive(Clone, Debug)]
pub enum Step {
    Insert(Row),
    Remove(Row),
}

/// Number, whether the set of rows changed, and header.
type Answer = (u64, bool, ColumnTrie);

impl Step {
    fn row(&self) -> &Row {
        match self {
            Step::Insert(row) | Step::Remove(row) => row,
        }
    }

    fn with(&self, row: Row) -> Step {
        match self {
            Step::Insert(_) => Step::Insert(row),
            Step::Remove(_) => Step::Remove(row),
        }
    }

    /// What takes it back.
    fn undoing(&self) -> Step {
        match self {
            Step::Insert(row) => Step::Remove(row.clone()),
            Step::Remove(row) => Step::Insert(row.clone()),
        }
    }

    fn ours(&self, pool: &mut [u64], t: ColumnTrie) -> Answer {
        match self {
            Step::Insert(row) => {
                let answer = insert(pool, t, row);
                (answer.number, answer.is_new, answer.table)
            }
            Step::Remove(row) => {
                let answer = remove(pool, t, row);
                (answer.number, answer.was_there, answer.table)
            }
        }
    }

    fn model(&self, pool: &mut [u64], t: ColumnTrie) -> Answer {
        match self {
            Step::Insert(row) => {
                let answer = model::insert(pool, t, row);
                (answer.number, answer.is_new, answer.table)
            }
            Step::Remove(row) => {
                let answer = model::remove(pool, t, row);
                (answer.number, answer.was_there, answer.table)
            }
        }
    }

    /// What it means for a set with room for so many rows: its number, and whether the set changes, as it then does.
    fn meant(&self, arity: usize, capacity: usize, rows: &mut BTreeSet<Row>) -> (u64, bool) {
        match self {
            step if step.row().len() != arity => (4, false),
            Step::Remove(row) => (0, rows.remove(row)),
            Step::Insert(row) if rows.contains(row) => (0, false),
            Step::Insert(_) if rows.len() == capacity => (5, false),
            Step::Insert(row) => (0, rows.insert(row.clone())),
        }
    }
}

#[derive(Clone)]
pub struct Changed {
    pub arity: usize,
    pub capacity: usize,
    /// Words of the pool before the table, and behind it.
    pub margins: (usize, usize),
    pub kinds: Kinds,
    pub built: Vec<Row>,
    pub steps: Vec<Step>,
}

impl fmt::Display for Changed {
    fn fmt(&self, f: &mut fmt::Formatter) -> fmt::Result {
        writeln!(f, "arity {}, capacity {}, words before and behind {:?}", self.arity, self.capacity, self.margins)?;
        writeln!(f, "grades {:?}", self.kinds.grade)?;
        writeln!(f, "built from {}", show_rows(&self.built))?;
        write!(f, "then {:?}", self.steps)
    }
}

/// A table on its way, and the set of rows that its sequence means.
#[derive(Clone)]
struct Table {
    pool: Vec<u64>,
    t: ColumnTrie,
    rows: BTreeSet<Row>,
}

impl Table {
    /// None where the build is refused: the part `tables` looks at those.
    fn built(case: &Changed) -> Option<Table> {
        let mut pool = marked(case.margins.0 + 2 * case.arity * case.capacity + case.margins.1);
        let start = case.margins.0 as u64;
        let built = build(&mut case.built.concat(), &mut pool, start, case.arity as u64, case.capacity as u64, case.kinds);
        (built.number == 0).then(|| Table { pool, t: built.table, rows: case.built.iter().cloned().collect() })
    }

    /// Answer and every pool word by the rules, and what the set says.
    fn step(&mut self, step: &Step, tally: &mut Tally, when: &str) -> Result<bool, String> {
        let (before, mut expected) = (self.t, self.pool.clone());
        let (number, changed, table) = step.ours(&mut self.pool, before);
        tally.same((number, changed, table), step.model(&mut expected, before), || format!("answer {when}"))?;
        tally.same(&self.pool, &expected, || format!("pool {when}"))?;
        let meant = step.meant(before.arity as usize, before.capacity as usize, &mut self.rows);
        tally.same((number, changed), meant, || format!("number, and changed or not, {when}"))?;
        self.t = table;
        Ok(changed)
    }

    /// The table is kermit's of the set; header and layers are those that our build over the set leaves in the same place of another pool.
    fn is_a_build(&self, tally: &mut Tally, when: &str) -> Result<(), String> {
        let rows: Vec<Row> = self.rows.iter().cloned().collect();
        same_table(tally, &self.pool, self.t, &trie(self.t.arity as usize, &rows), when)?;
        let mut pool = vec![0; self.pool.len()];
        let kinds = Kinds { grade: self.t.grade };
        let built = build(&mut rows.concat(), &mut pool, self.t.start, self.t.arity, self.t.capacity, kinds);
        tally.same((built.number, built.table), (0, self.t), || format!("header of a build over the rows {when}"))?;
        let words = (model::layers(&pool, built.table), model::layers(&self.pool, self.t));
        tally.same(words.0, words.1, || format!("layers of a build over the rows {when}"))
    }

    /// A step that changed the set, taken back: header and used words are as before.
    fn can_be_undone(&self, step: &Step, before: &Table, tally: &mut Tally, when: &str) -> Result<(), String> {
        let mut pool = self.pool.clone();
        let answer = step.undoing().ours(&mut pool, self.t);
        tally.same(answer, (0, true, before.t), || format!("answer when taken back {when}"))?;
        let words = (model::layers(&pool, answer.2), model::layers(&before.pool, before.t));
        tally.same(words.0, words.1, || format!("used words when taken back {when}"))
    }
}

impl Case for Changed {
    fn run(&self, tally: &mut Tally) -> Result<(), String> {
        let Some(mut table) = Table::built(self) else {
            return Ok(());
        };
        for (i, step) in self.steps.iter().enumerate() {
            let when = format!("after step {}", i + 1);
            let before = table.clone();
            if table.step(step, tally, &when)? {
                table.can_be_undone(step, &before, tally, &when)?;
            }
            table.is_a_build(tally, &when)?;
        }
        Ok(())
    }

    fn smaller(&self) -> Vec<Self> {
        let mut all = vec![];
        if self.kinds != Kinds::default() {
            all.push(Changed { kinds: Kinds::default(), ..self.clone() });
        }
        if self.margins != (0, 0) {
            all.push(Changed { margins: (0, 0), ..self.clone() });
        }
        all.extend(smaller_steps(&self.steps).into_iter().map(|steps| Changed { steps, ..self.clone() }));
        all.extend(smaller_rows(&self.built).into_iter().map(|built| Changed { built, ..self.clone() }));
        if self.arity > 1 {
            let cut = |row: &Row| row[..row.len().min(self.arity - 1)].to_vec();
            let built = self.built.iter().map(cut).collect();
            let steps = self.steps.iter().map(|step| step.with(cut(step.row()))).collect();
            all.push(Changed { arity: self.arity - 1, built, steps, ..self.clone() });
        }
        if self.capacity > 1 {
            all.extend([self.capacity / 2, self.capacity - 1].map(|capacity| Changed { capacity, ..self.clone() }));
        }
        all
    }
}

/// Fewer steps, or one word of a row made smaller.
fn smaller_steps(steps: &[Step]) -> Vec<Vec<Step>> {
    let mut all = shorter(steps);
    for (i, step) in steps.iter().enumerate() {
        all.extend(lower(step.row()).into_iter().map(|row| {
            let mut steps = steps.to_vec();
            steps[i] = step.with(row);
            steps
        }));
    }
    all
}

/// Every sequence of so many inserts and removals of these rows.
fn all_steps(rows: &[Row], count: usize) -> Vec<Vec<Step>> {
    let steps = rows.iter().flat_map(|row| [Step::Insert(row.clone()), Step::Remove(row.clone())]);
    (0..count).fold(vec![vec![]], |all, _| {
        let longer =
            |sequence: &Vec<Step>| -> Vec<Vec<Step>> { steps.clone().map(|step| [&sequence[..], &[step]].concat()).collect() };
        all.iter().flat_map(longer).collect()
    })
}

/// Every set of rows over a few keys, built at capacity and with room for one more, and every sequence of a few steps over the same rows.
pub fn exhaustive() -> impl Iterator<Item = Changed> {
    [(1, 3, 3), (2, 2, 3), (3, 2, 1)].into_iter().flat_map(|(arity, keys, count)| {
        let rows = all_rows(arity, keys);
        let sequences = all_steps(&rows, count);
        subsets(&rows, rows.len()).into_iter().flat_map(move |built| {
            let case = move |steps: &Vec<Step>, room: usize| Changed {
                arity,
                capacity: built.len().max(1) + room,
                margins: (1, 1),
                kinds: Kinds { grade: [built.len() % 2 == 1; 8] },
                built: built.clone(),
                steps: steps.clone(),
            };
            sequences.iter().flat_map(|steps| [case(steps, 0), case(steps, 1)]).collect::<Vec<_>>()
        })
    })
}

/// So many rows or fewer, all different, in no order.
fn drawn(rng: &mut Rng, arity: usize, keys: Keys, count: usize) -> Vec<Row> {
    let rows: BTreeSet<Row> = (0..count).map(|_| rng.row(arity, keys)).collect();
    let mut rows: Vec<Row> = rows.into_iter().collect();
    rng.shuffle(&mut rows);
    rows
}

/// A step after which a table of these rows is likely to have changed: `removals` of 8 are removals.
fn draw(rng: &mut Rng, arity: usize, keys: Keys, rows: &BTreeSet<Row>, removals: usize) -> Step {
    let removal = rng.below(8) < removals;
    let stored = rng.below(8) < if removal { 6 } else { 1 };
    let row = rows.iter().nth(rng.below(rows.len().max(1))).filter(|_| stored).cloned();
    let mut row = row.unwrap_or_else(|| rng.row(arity, keys));
    match rng.below(40) {
        0 => _ = row.pop(),
        1 => row.push(0),
        _ => (),
    }
    if removal {
        Step::Remove(row)
    } else {
        Step::Insert(row)
    }
}

pub fn random(rng: &mut Rng) -> Changed {
    let (arity, keys) = (rng.within(1, 8), rng.keys());
    let count = rng.pick(&[0, 1, 3, 10, 40]);
    let built = drawn(rng, arity, keys, count);
    // At capacity, with room for some more, or seldom with as much as a table can have.
    let capacity = match rng.below(2000) {
        0 => MOST,
        1..=800 => built.len().max(1),
        _ => built.len() + rng.within(1, 5),
    };
    let mut rows: BTreeSet<Row> = built.iter().cloned().collect();
    let (removals, count) = (rng.within(2, 7), rng.within(1, 24));
    let steps = (0..count)
        .map(|_| {
            let step = draw(rng, arity, keys, &rows, removals);
            step.meant(arity, capacity, &mut rows);
            step
        })
        .collect();
    Changed { arity, capacity, margins: (rng.below(4), rng.below(4)), kinds: rng.kinds(), built, steps }
}

/// From a table at capacity every row is taken out, one more that isn't there any longer, and all are put in again, each time in another order.
pub fn emptied(rng: &mut Rng) -> Changed {
    let (arity, keys, count) = (rng.within(1, 8), rng.keys(), rng.within(1, 30));
    let built = drawn(rng, arity, keys, count);
    let mut rows = built.clone();
    rng.shuffle(&mut rows);
    let mut steps: Vec<Step> = rows.iter().cloned().map(Step::Remove).collect();
    steps.push(Step::Remove(rows[0].clone()));
    rng.shuffle(&mut rows);
    steps.extend(rows.into_iter().map(Step::Insert));
    Changed { arity, capacity: built.len(), margins: (rng.below(4), rng.below(4)), kinds: rng.kinds(), built, steps }
}

/// As many rows as a table can have: a new one is refused, is taken after a removal, and the next is refused. Rows go at both ends and in between, one of them twice.
fn full(rng: &mut Rng, arity: usize) -> Changed {
    let mut built = distinct(rng, arity, MOST + 2);
    let new = built.split_off(MOST);
    let (least, greatest) = (built.iter().min().unwrap().clone(), built.iter().max().unwrap().clone());
    let out = |row: &Row| Step::Remove(row.clone());
    let into = |row: &Row| Step::Insert(row.clone());
    let mut steps = vec![out(&new[0]), into(&new[0]), out(&built[0]), into(&new[0]), into(&new[1])];
    steps.extend([out(&least), out(&greatest), out(&built[1]), out(&built[1]), out(&new[0]), into(&greatest)]);
    steps.push(Step::Remove(vec![0; arity + 1]));
    Changed { arity, capacity: MOST, margins: (1, 1), kinds: rng.kinds(), built, steps }
}

/// A few large ones, at the limits.
pub fn large(rng: &mut Rng) -> Vec<Changed> {
    [1, 2, 3, 8].map(|arity| full(rng, arity)).into()
}
