//! Recorded listings, as kermit gives them and bent: a word changed, a row dropped, doubled, exchanged, put in, the end cut off. The verdict is held to document
//! 02's rules over kermit's rows. joins.rs asks the checker of what each window got, refusals among them.
use crate::case::{shorter, Case, Tally};
use crate::joins::{self, Call, Graded, Joins};
use crate::kermit;
use crate::model::{join_number, Row};
use crate::model_verdicts::{answer, read_in, rows_listed, verdict, Verdict};
use crate::overlay_joins::{self, LaidJoins};
use crate::rng::Rng;
use ducatbriar::calls::*;
use std::fmt;

/// What is done to a listing. Places are counted round, so that a bend fits a listing of any length; without rows nothing is bent but by a row that is put in.
#[derive(Clone, Debug)]
pub enum Bend {
    /// A word becomes this one.
    Word(usize, u64),
    Drop(usize),
    Double(usize),
    Exchange(usize, usize),
    /// A row of these words, of which n count, before the row of this place.
    Put(usize, [u64; 8]),
    /// So many rows of the front stay, as in a window that was too small.
    Cut(usize),
}

impl Bend {
    fn bend(&self, n: usize, rows: &mut Vec<Row>) {
        let count = rows.len();
        match *self {
            Bend::Put(at, words) => rows.insert(at % (count + 1), words[..n].to_vec()),
            _ if count == 0 => (),
            Bend::Word(at, word) => rows[at / n % count][at % n] = word,
            Bend::Drop(at) => _ = rows.remove(at % count),
            Bend::Double(at) => rows.insert(at % count, rows[at % count].clone()),
            Bend::Exchange(one, other) => rows.swap(one % count, other % count),
            Bend::Cut(fit) => rows.truncate(fit % count),
        }
    }
}

/// A query that passes the checks, plain or with atoms that are laid over.
#[derive(Clone)]
pub enum Asked {
    Plain(Graded),
    Laid(LaidJoins),
}

impl Asked {
    fn call(&self) -> Call {
        match self {
            Asked::Plain(graded) => graded.base.call(&graded.kinds()),
            Asked::Laid(laid) => laid.call(),
        }
    }

    /// The complete listing, by kermit.
    fn rows(&self) -> Vec<Row> {
        let found = |joins: &Joins| -> kermit::Found { joins.found(SeekStrategy::default()) };
        match self {
            Asked::Plain(graded) => found(&graded.base).rows,
            Asked::Laid(laid) => found(&laid.afresh()).rows,
        }
    }

    fn smaller(&self) -> Vec<Asked> {
        match self {
            Asked::Plain(graded) => graded.smaller().into_iter().map(Asked::Plain).collect(),
            Asked::Laid(laid) => laid.smaller().into_iter().map(Asked::Laid).collect(),
        }
    }
}

impl fmt::Display for Asked {
    fn fmt(&self, f: &mut fmt::Formatter) -> fmt::Result {
        match self {
            Asked::Plain(graded) => graded.fmt(f),
            Asked::Laid(laid) => laid.fmt(f),
        }
    }
}

#[derive(Clone)]
pub struct Recorded {
    asked: Asked,
    bends: Vec<Bend>,
    /// Words that are missing at the end: of part of a row 16 is told.
    short: usize,
    /// What stands for the count, which is not read where there are variables.
    count: u64,
}

impl fmt::Display for Recorded {
    fn fmt(&self, f: &mut fmt::Formatter) -> fmt::Result {
        writeln!(f, "{}", self.asked)?;
        write!(f, "listing bent by {:?}, {} words short, count {}", self.bends, self.short, self.count)
    }
}

/// What one bend of a complete listing must lead to, by what it does and not by looking for what is wrong; none where that isn't so simple.
fn known(order: &[u64], all: &[Row], bends: &[Bend]) -> Option<Verdict> {
    let count = all.len();
    let [bend] = bends else {
        return bends.is_empty().then_some(Verdict::Accepted);
    };
    match *bend {
        Bend::Put(..) => None,
        _ if count == 0 => Some(Verdict::Accepted),
        Bend::Word(at, word) => {
            let (n, i) = (order.len(), at / order.len() % count);
            let mut row = all[i].clone();
            row[at % n] = word;
            // A later answer comes after the rows before it, and the row behind it doesn't come after that.
            let wrong = if all[i + 1..].contains(&row) { i + 1 } else { i };
            Some(if row == all[i] { Verdict::Accepted } else { Verdict::Wrong(wrong) })
        }
        Bend::Drop(at) => Some(Verdict::Missing(all[at % count].clone())),
        Bend::Double(at) => Some(Verdict::Wrong(at % count + 1)),
        Bend::Cut(fit) => Some(Verdict::Missing(all[fit % count].clone())),
        Bend::Exchange(one, other) if one % count == other % count => Some(Verdict::Accepted),
        Bend::Exchange(one, other) => {
            // The later row, brought forward, comes after those before it; the one behind it doesn't.
            let (first, last) = ((one % count).min(other % count), (one % count).max(other % count));
            assert!(read_in(order, &all[first]) < read_in(order, &all[last]));
            Some(Verdict::Wrong(first + 1))
        }
    }
}

impl Case for Recorded {
    fn run(&self, tally: &mut Tally) -> Result<(), String> {
        let (call, all) = (self.asked.call(), self.asked.rows());
        let n = call.query.n as usize;
        let order = &call.query.order[..n];
        let mut rows = all.clone();
        self.bends.iter().for_each(|bend| bend.bend(n, &mut rows));
        let mut listing = rows.concat();
        listing.truncate(listing.len().saturating_sub(self.short));
        let checked = check_listing(&call.pool, call.tables, call.query, &listing, self.count);
        let number = join_number(&call.pool, &call.tables, &call.query, listing.len());
        if number != 0 {
            return tally.same(checked, Checked { number, ..Default::default() }, || "a listing that is not whole rows".into());
        }
        let expected = verdict(order, &all, &rows_listed(n, &listing, self.count));
        tally.same(checked, answer(expected), || "the verdict".into())?;
        match known(order, &all, &self.bends).filter(|_| self.short == 0) {
            None => Ok(()),
            Some(verdict) => tally.same(checked, answer(verdict), || "the verdict by what was bent".into()),
        }
    }

    fn smaller(&self) -> Vec<Self> {
        let mut all: Vec<Recorded> = shorter(&self.bends).into_iter().map(|bends| Recorded { bends, ..self.clone() }).collect();
        if self.short > 0 {
            all.push(Recorded { short: 0, ..self.clone() });
        }
        all.extend(self.asked.smaller().into_iter().map(|asked| Recorded { asked, ..self.clone() }));
        all
    }
}

/// Every bend of a listing of so many rows by a row's place, a word that becomes one of few, or a row of few words that is put in.
fn every_bend(n: usize, count: usize) -> Vec<Bend> {
    let mut all = vec![];
    for at in 0..count {
        all.extend([Bend::Drop(at), Bend::Double(at), Bend::Cut(at)]);
        all.extend((at + 1..count).map(|other| Bend::Exchange(at, other)));
    }
    all.extend((0..n * count).flat_map(|at| (0..3).map(move |word| Bend::Word(at, word))));
    all.extend([0, count / 2, count].into_iter().flat_map(|at| (0..3).map(move |word| Bend::Put(at, [word; 8]))));
    all
}

/// Some of joins.rs's triangles and paths in every order: their listings as they are, with every single bend, and up to a row and a word short.
pub fn exhaustive() -> impl Iterator<Item = Recorded> {
    joins::exhaustive().step_by(3).flat_map(|base| {
        let asked = Asked::Plain(Graded { base, grades: vec![] });
        let (n, count) = (asked.call().query.n as usize, asked.rows().len());
        let mut all = vec![];
        for short in 0..=n + 1 {
            all.push(Recorded { asked: asked.clone(), bends: vec![], short, count: short as u64 });
        }
        let bent = |bend: Bend| Recorded { asked: asked.clone(), bends: vec![bend], short: 0, count: u64::MAX };
        all.extend(every_bend(n, count).into_iter().map(bent));
        all
    })
}

/// No variables: what is read is the count, whatever words stand beside it.
#[derive(Clone, Debug)]
pub struct Counted {
    words: usize,
    count: u64,
}

impl fmt::Display for Counted {
    fn fmt(&self, f: &mut fmt::Formatter) -> fmt::Result {
        write!(f, "no variables, {self:?}")
    }
}

impl Case for Counted {
    fn run(&self, tally: &mut Tally) -> Result<(), String> {
        let checked = check_listing(&[], Tables::default(), Query::default(), &vec![7; self.words], self.count);
        let expected = match self.count {
            0 => Checked { verdict: 3, ..Default::default() },
            1 => Checked { verdict: 1, ..Default::default() },
            _ => Checked { verdict: 2, row: 1, ..Default::default() },
        };
        tally.same(checked, expected, || "the verdict".into())
    }

    fn smaller(&self) -> Vec<Self> {
        vec![]
    }
}

pub fn no_variables() -> impl Iterator<Item = Counted> {
    (0..3).flat_map(|words| [0, 1, 2, 3, 1 << 32, u64::MAX].map(|count| Counted { words, count }))
}

/// A bend anywhere, by words that the tables may have.
fn bend(rng: &mut Rng, rows: &[Row]) -> Bend {
    let (one, other) = (rng.below(40), rng.below(40));
    let keys = rng.keys();
    // A word of some row, or any.
    let word = match rows {
        [] => rng.key(keys),
        _ => {
            let row = rng.pick(rows);
            rng.pick(&row)
        }
    };
    match rng.below(8) {
        0 => Bend::Drop(one),
        1 => Bend::Double(one),
        2 => Bend::Exchange(one, other),
        3 => Bend::Cut(one),
        4 => Bend::Put(one, std::array::from_fn(|_| word)),
        5 if !rows.is_empty() => {
            let row = rng.pick(rows);
            Bend::Put(one, std::array::from_fn(|i| row.get(i).copied().unwrap_or(0)))
        }
        6 => Bend::Word(one, rng.key(keys)),
        _ => Bend::Word(one, word),
    }
}

pub fn random(rng: &mut Rng) -> Recorded {
    let asked = match rng.below(3) {
        0 => Asked::Laid(overlay_joins::random(rng)),
        _ => Asked::Plain(joins::graded(rng)),
    };
    let rows = asked.rows();
    let bends = (0..rng.pick(&[0, 1, 1, 1, 2, 3])).map(|_| bend(rng, &rows)).collect();
    let short = if rng.below(8) == 0 { rng.within(1, 3) } else { 0 };
    let count = rng.pick(&[0, 1, rows.len() as u64, u64::MAX]);
    Recorded { asked, bends, short, count }
}

/// Over as many rows as tables can have: all rows of one, and what a small one leaves of it, with one bend and with none. The third of joins.rs's large ones, a
/// triangle, is left out: a plain descent over it takes long.
pub fn large(rng: &mut Rng) -> Vec<Recorded> {
    let bases: Vec<Joins> = joins::large(rng).into_iter().take(2).collect();
    let mut all = vec![];
    for base in bases {
        let asked = Asked::Plain(Graded { base, grades: vec![] });
        let last = asked.rows().len() - 1;
        let bends = [vec![], vec![Bend::Drop(last)], vec![Bend::Drop(0)], vec![Bend::Double(last)], vec![Bend::Word(last, 1)]];
        all.extend(bends.map(|bends| Recorded { asked: asked.clone(), bends, short: 0, count: 0 }));
    }
    all
}
