//! Joins a window at a time: the pieces of chains of calls against kermit's whole listing, and single calls after given rows, answers and others, against the
//! rows of that listing that come after them (`model_after.rs`). Of plain atoms and of laid-over ones; under all strategies. joins.rs asks the same of
//! refused queries and of a start in every window.
use crate::case::{shorter, Case, Tally};
use crate::joins::{self, Call, Graded, Joins};
use crate::model::{self, Row};
use crate::model_after::{piece, refused};
use crate::overlay_joins::{self, LaidJoins};
use crate::rng::Rng;
use crate::tables::marked;
use ducatbriar::calls::*;
use std::fmt;

/// A join over plain atoms, or one some of whose atoms are laid over.
#[derive(Clone)]
enum Base {
    Plain(Graded),
    Laid(LaidJoins),
}

impl fmt::Display for Base {
    fn fmt(&self, f: &mut fmt::Formatter) -> fmt::Result {
        match self {
            Base::Plain(base) => base.fmt(f),
            Base::Laid(base) => base.fmt(f),
        }
    }
}

impl Base {
    fn call(&self) -> Call {
        match self {
            Base::Plain(base) => base.call(),
            Base::Laid(base) => base.call(),
        }
    }

    /// The join that kermit is asked.
    fn theirs(&self) -> Joins {
        match self {
            Base::Plain(base) => base.base.clone(),
            Base::Laid(base) => base.afresh(),
        }
    }

    fn smaller(&self) -> Vec<Base> {
        match self {
            Base::Plain(base) => base.smaller().into_iter().map(Base::Plain).collect(),
            Base::Laid(base) => base.smaller().into_iter().map(Base::Laid).collect(),
        }
    }
}

fn random_base(rng: &mut Rng) -> Base {
    if rng.below(2) == 0 {
        Base::Plain(joins::graded(rng))
    } else {
        Base::Laid(overlay_joins::random(rng))
    }
}

/// One call, held to the answer and the words that are expected.
fn asked(
    call: &Call,
    strategy: SeekStrategy,
    given: Option<[u64; 8]>,
    (answer, words): (JoinedAfter, &[u64]),
    tally: &mut Tally,
) -> Result<(), String> {
    let mut window = marked(words.len());
    // At a start the row is not looked at.
    let (goes_on, row) = (given.is_some(), given.unwrap_or([u64::MAX; 8]));
    let ours = join_after(strategy, &call.pool, call.tables, call.query, goes_on, row, &mut window);
    let what = || format!("{strategy:?}, after {given:?}, window of {}", words.len());
    tally.same(ours, answer, || what() + ", answer")?;
    tally.same(&window[..], words, || what() + ", words")
}

/// Calls of a query, with its whole listing if it passes the checks, after each of the given rows into a window of so many words.
fn after_each(call: &Call, listing: &[Row], given: &[Option<[u64; 8]>], size: usize, tally: &mut Tally) -> Result<(), String> {
    let number = model::join_number(&call.pool, &call.tables, &call.query, size);
    for &given in given {
        let mut words = marked(size);
        let answer = if number == 0 { piece(&call.query, listing, given, &mut words) } else { refused(number) };
        SeekStrategy::ALL.into_iter().try_for_each(|strategy| asked(call, strategy, given, (answer, &words), tally))?;
    }
    Ok(())
}

/// Any query, refused ones too: a start, and going on after zeros, after the greatest row, and from the middle of its rows.
pub fn any(call: &Call, size: usize, tally: &mut Tally) -> Result<(), String> {
    let passes = model::join_number(&call.pool, &call.tables, &call.query, 0) == 0;
    let rows = if passes { model::answers(&call.pool, &call.tables, &call.query) } else { vec![] };
    let middle = Given { row: rows.len() / 2, changes: vec![], behind: 7 }.words(&rows);
    after_each(call, &rows, &[None, Some([0; 8]), Some([u64::MAX; 8]), Some(middle)], size, tally)
}

/// A start into a window for which a join's answer and words are known: the same number, rows and words, and the last row that was written.
pub fn start(call: &Call, strategy: SeekStrategy, joined: Joined, words: &[u64], tally: &mut Tally) -> Result<(), String> {
    let Joined { number, rows, .. } = joined;
    let mut answer = JoinedAfter { number, rows, last: [0; 8] };
    if rows > 0 {
        let n = call.query.n as usize;
        answer.last[..n].copy_from_slice(&words[n * (rows as usize - 1)..][..n]);
    }
    asked(call, strategy, None, (answer, words), tally)
}

// ---- chains

/// Windows of so many rows, one after the other, and again from the first of them, until all rows are written.
#[derive(Clone)]
pub struct Chain {
    base: Base,
    sizes: Vec<usize>,
}

impl fmt::Display for Chain {
    fn fmt(&self, f: &mut fmt::Formatter) -> fmt::Result {
        write!(f, "{}\nwindows of {:?} rows", self.base, self.sizes)
    }
}

/// No more calls than this for one listing.
const CALLS: usize = 300;

impl Chain {
    /// Each piece is the rows of kermit's listing that follow those before.
    fn pieces(&self, call: &Call, strategy: SeekStrategy, rows: &[Row], tally: &mut Tally) -> Result<(), String> {
        let n = call.query.n as usize;
        let (mut done, mut given) = (0, None);
        for &size in self.sizes.iter().cycle() {
            let size = size.max(rows.len().div_ceil(CALLS));
            let mut words = marked(n * size);
            let next = &rows[done..rows.len().min(done + size)];
            words.iter_mut().zip(next.iter().flatten()).for_each(|(place, &word)| *place = word);
            let mut last = given.unwrap_or([0; 8]);
            if let Some(row) = next.last() {
                last[..n].copy_from_slice(row);
            }
            done += next.len();
            let number = if done < rows.len() { 12 } else { 0 };
            asked(call, strategy, given, (JoinedAfter { number, rows: next.len() as u64, last }, &words), tally)?;
            if number == 0 {
                break;
            }
            given = Some(last);
        }
        // Nothing comes after the last row.
        after_each(call, rows, &[rows.last().map(|row| Given::eight(row, 0))], n, tally)
    }
}

impl Case for Chain {
    fn run(&self, tally: &mut Tally) -> Result<(), String> {
        let (call, theirs) = (self.base.call(), self.base.theirs());
        for strategy in SeekStrategy::ALL {
            self.pieces(&call, strategy, &theirs.found(strategy).rows, tally)?;
        }
        Ok(())
    }

    fn smaller(&self) -> Vec<Self> {
        let sizes = shorter(&self.sizes).into_iter().filter(|sizes| !sizes.is_empty());
        let mut all: Vec<Chain> = sizes.map(|sizes| Chain { sizes, ..self.clone() }).collect();
        all.extend(self.base.smaller().into_iter().map(|base| Chain { base, ..self.clone() }));
        all
    }
}

/// Windows of one length from one to twenty rows, or of several.
pub fn chain(rng: &mut Rng) -> Chain {
    let base = random_base(rng);
    let count = rng.pick(&[1, 1, 2, 5]);
    Chain { base, sizes: (0..count).map(|_| rng.within(1, 20)).collect() }
}

// ---- given rows

/// What becomes of a word.
#[derive(Clone, Copy, Debug)]
enum Change {
    Less,
    More,
    Zero,
    Greatest,
    To(u64),
}

/// A given row: one of the listing's, or zeros if it has none, with some of its words changed; and a word that stands in each place behind it.
#[derive(Clone, Debug)]
struct Given {
    row: usize,
    changes: Vec<(usize, Change)>,
    behind: u64,
}

impl Given {
    fn eight(row: &[u64], behind: u64) -> [u64; 8] {
        std::array::from_fn(|i| row.get(i).copied().unwrap_or(behind))
    }

    fn words(&self, rows: &[Row]) -> [u64; 8] {
        if rows.is_empty() {
            return Self::eight(&[], self.behind);
        }
        let mut row = rows[self.row % rows.len()].clone();
        let n = row.len();
        for &(v, change) in self.changes.iter().filter(|_| n > 0) {
            let word = &mut row[v % n];
            *word = match change {
                Change::Less => word.wrapping_sub(1),
                Change::More => word.wrapping_add(1),
                Change::Zero => 0,
                Change::Greatest => u64::MAX,
                Change::To(word) => word,
            };
        }
        Self::eight(&row, self.behind)
    }
}

/// Calls after given rows into a window of so many words.
#[derive(Clone)]
pub struct Single {
    base: Base,
    given: Vec<Given>,
    window: usize,
}

impl fmt::Display for Single {
    fn fmt(&self, f: &mut fmt::Formatter) -> fmt::Result {
        write!(f, "{}\nafter {:?}, window of {}", self.base, self.given, self.window)
    }
}

impl Case for Single {
    fn run(&self, tally: &mut Tally) -> Result<(), String> {
        let call = self.base.call();
        let listing = self.base.theirs().found(SeekStrategy::default()).rows;
        let given: Vec<_> = self.given.iter().map(|given| Some(given.words(&listing))).collect();
        after_each(&call, &listing, &given, self.window, tally)
    }

    fn smaller(&self) -> Vec<Self> {
        let mut all: Vec<Single> = shorter(&self.given).into_iter().map(|given| Single { given, ..self.clone() }).collect();
        all.extend(self.base.smaller().into_iter().map(|base| Single { base, ..self.clone() }));
        all
    }
}

fn given(rng: &mut Rng) -> Given {
    let word = if rng.below(2) == 0 { rng.below(6) as u64 } else { rng.word() };
    let kinds = [Change::Less, Change::More, Change::Zero, Change::Greatest, Change::To(word)];
    let changes = (0..rng.below(3)).map(|_| (rng.below(8), rng.pick(&kinds))).collect();
    Given { row: rng.below(1 << 20), changes, behind: rng.pick(&[0, 1, u64::MAX]) }
}

/// Answers, rows beside answers, and any rows; the window is whole rows more often than not, and none at all among them.
pub fn single(rng: &mut Rng) -> Single {
    let base = random_base(rng);
    let n = base.theirs().order.len();
    let words = n * rng.within(0, 20);
    let window = if rng.below(8) == 0 { words + rng.below(n) } else { words };
    Single { base, given: (0..8).map(|_| given(rng)).collect(), window }
}

/// Every row of words 0 to 3, and those with the greatest word in some places, after each path of two atoms over few rows; and over two tables, one laid over the other.
#[derive(Clone)]
pub struct EveryRow {
    base: Base,
    window: usize,
}

impl fmt::Display for EveryRow {
    fn fmt(&self, f: &mut fmt::Formatter) -> fmt::Result {
        write!(f, "{}\nafter every row, window of {} rows", self.base, self.window)
    }
}

impl Case for EveryRow {
    fn run(&self, tally: &mut Tally) -> Result<(), String> {
        let (call, theirs) = (self.base.call(), self.base.theirs());
        let n = theirs.order.len();
        let words = [0, 1, 2, 3, u64::MAX];
        let rows = (0..words.len().pow(n as u32))
            .map(|i| -> Row { (0..n as u32).map(|v| words[i / words.len().pow(v) % words.len()]).collect() });
        let given: Vec<_> = rows.map(|row| Some(Given::eight(&row, 9))).collect();
        after_each(&call, &theirs.found(SeekStrategy::default()).rows, &given, n * self.window, tally)
    }

    fn smaller(&self) -> Vec<Self> {
        self.base.smaller().into_iter().map(|base| EveryRow { base, ..self.clone() }).collect()
    }
}

pub fn exhaustive() -> impl Iterator<Item = EveryRow> {
    let plain = joins::paths().map(|base| Base::Plain(Graded::plain(base)));
    let laid = overlay_joins::exhaustive().filter(|base| base.variables() < 3).map(Base::Laid);
    plain.chain(laid).enumerate().map(|(i, base)| EveryRow { base, window: [2, 0, 1, 4][i % 4] })
}

/// Over tables with as many rows as they can have: by large windows, and after rows in the middle by windows of twenty rows.
pub fn large(rng: &mut Rng) -> (Vec<Chain>, Vec<Single>) {
    let plain = joins::large(rng).into_iter().map(|base| Base::Plain(Graded::plain(base)));
    let bases: Vec<Base> = plain.chain(overlay_joins::large(rng).into_iter().map(Base::Laid)).collect();
    let chains = bases.iter().map(|base| Chain { base: base.clone(), sizes: vec![20, 5000] }).collect();
    let singles = bases.into_iter().map(|base| {
        let window = 20 * base.theirs().order.len();
        Single { base, given: (0..20).map(|_| given(rng)).collect(), window }
    });
    (chains, singles.collect())
}
