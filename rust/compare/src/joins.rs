//! Joins: rows and seeks under all strategies and in windows of every size around full against kermit, and refusals against document 01's table. The plain
//! engine, which has no strategy, is held to the same in each of these windows, and so to the other engine; and so is a start of the join that goes on
//! (after.rs), which over changed words is asked to go on too. kermit knows no kinds and no window: where a query passes the checks kinds change nothing, and
//! a window that is not whole rows gets nothing.
use crate::after;
use crate::case::{shorter, show_rows, smaller_rows, Case, Tally};
use crate::kermit;
use crate::model::{self, Row};
use crate::model_verdicts;
use crate::rng::Rng;
use crate::tables::{all_rows, distinct, marked, MOST};
use ducatbriar::calls::*;
use oracle::{BinarySeek, Counted, GallopingSeek, LinearSeek};
use std::fmt;

#[derive(Clone)]
pub struct Joins {
    pub order: Vec<usize>,
    /// Arity and rows of each table.
    pub tables: Vec<(usize, Vec<Row>)>,
    /// Table and variables of each atom.
    pub atoms: Vec<(usize, Vec<usize>)>,
}

impl fmt::Display for Joins {
    fn fmt(&self, f: &mut fmt::Formatter) -> fmt::Result {
        writeln!(f, "order {:?}", self.order)?;
        for (i, (arity, rows)) in self.tables.iter().enumerate() {
            writeln!(f, "table {i}, arity {arity}: {}", show_rows(rows))?;
        }
        for (table, variables) in &self.atoms {
            write!(f, "atom over table {table}, variables {variables:?}; ")?;
        }
        Ok(())
    }
}

/// What a join is handed.
#[derive(Clone)]
pub struct Call {
    pub pool: Vec<u64>,
    pub tables: Tables,
    pub query: Query,
}

impl Joins {
    /// The tables one behind the other in a pool, of these kinds, and the query in the call's words.
    pub fn call(&self, kinds: &[Kinds]) -> Call {
        let mut call = Call { pool: vec![], tables: Tables::default(), query: Query::default() };
        for (i, (arity, rows)) in self.tables.iter().enumerate() {
            let (start, capacity) = (call.pool.len(), rows.len().max(1));
            call.pool.extend(marked(2 * arity * capacity));
            let built = build(&mut rows.concat(), &mut call.pool, start as u64, *arity as u64, capacity as u64, kinds[i]);
            assert_eq!(built.number, 0, "the rows of a case fit its table");
            call.tables.tables[i] = built.table;
        }
        call.tables.count = self.tables.len() as u64;
        call.query.n = self.order.len() as u64;
        for (place, &v) in call.query.order.iter_mut().zip(&self.order) {
            *place = v as u64;
        }
        call.query.atom_count = self.atoms.len() as u64;
        for (place, (table, variables)) in call.query.atoms.iter_mut().zip(&self.atoms) {
            *place = Atom { table: *table as u64, len: variables.len() as u64, ..Default::default() };
            place.variables.iter_mut().zip(variables).for_each(|(place, &v)| *place = v as u64);
        }
        call
    }

    fn theirs<S: oracle::SeekStrategy>(&self) -> kermit::Found {
        let tries: Vec<_> = self.tables.iter().map(|(arity, rows)| kermit::trie::<Counted<S>>(*arity, rows)).collect();
        kermit::join(&self.order, &self.atoms, &tries)
    }

    /// What kermit finds under a strategy.
    pub fn found(&self, strategy: SeekStrategy) -> kermit::Found {
        match strategy {
            SeekStrategy::Linear => self.theirs::<LinearSeek>(),
            SeekStrategy::Binary => self.theirs::<BinarySeek>(),
            SeekStrategy::Galloping => self.theirs::<GallopingSeek>(),
        }
    }

    /// The join that a call which passes the checks asks for, with a table of its own for each atom.
    fn asked(call: &Call) -> Joins {
        let Call { pool, tables, query } = call;
        let numbers = |words: &[u64]| words.iter().map(|&word| word as usize).collect::<Vec<_>>();
        let mut asked = Joins { order: numbers(&query.order[..query.n as usize]), tables: vec![], atoms: vec![] };
        for (i, atom) in query.atoms[..query.atom_count as usize].iter().enumerate() {
            asked.tables.push((atom.len as usize, model::atom_rows(pool, tables, atom)));
            asked.atoms.push((i, numbers(&atom.variables[..atom.len as usize])));
        }
        asked
    }
}

impl Call {
    /// What a join answers and writes: number, rows and words by document 01, and the seeks that kermit makes.
    pub fn expected(&self, strategy: SeekStrategy, window: &mut [u64]) -> Joined {
        let joined = model::join(&self.pool, &self.tables, &self.query, window);
        match joined.number {
            0 | 12 => Joined { seeks: Joins::asked(self).found(strategy).seeks(joined.rows as usize), ..joined },
            _ => joined,
        }
    }

    /// The leapfrogs under a strategy, and a start of the join that goes on, held to the answer and the words that are expected of a window.
    fn leapt(&self, strategy: SeekStrategy, answer: Joined, words: &[u64], tally: &mut Tally) -> Result<(), String> {
        let mut window = marked(words.len());
        let ours = join(strategy, &self.pool, self.tables, self.query, &mut window);
        tally.same(ours, answer, || format!("{strategy:?}, window of {}, answer", words.len()))?;
        tally.same(&window[..], words, || format!("{strategy:?}, window of {}, words", words.len()))?;
        after::start(self, strategy, answer, words, tally)
    }

    /// The plain engine held to the same, and so to the leapfrogs. It makes no seeks.
    fn plainly(&self, answer: Joined, words: &[u64], tally: &mut Tally) -> Result<(), String> {
        let mut window = marked(words.len());
        let ours = plain_join(&self.pool, self.tables, self.query, &mut window);
        let answer = PlainJoined { number: answer.number, rows: answer.rows };
        tally.same(ours, answer, || format!("the plain engine, window of {}, answer", words.len()))?;
        tally.same(&window[..], words, || format!("the plain engine, window of {}, words", words.len()))
    }

    /// The checker on all words of a window, and on its rows alone, by document 02: refused as the join is, but for 12.
    fn checked(&self, rows: u64, words: &[u64], tally: &mut Tally) -> Result<(), String> {
        let listed = (self.query.n as usize).saturating_mul(rows as usize).min(words.len());
        for listing in [words, &words[..listed]] {
            let ours = check_listing(&self.pool, self.tables, self.query, listing, rows);
            let expected = model_verdicts::check_listing(&self.pool, &self.tables, &self.query, listing, rows);
            tally.same(ours, expected, || format!("the checker on {} words of a window of {}", listing.len(), words.len()))?;
        }
        Ok(())
    }

    /// Both engines, all strategies, into a window of so many words, by document 01; what the checker says of it; and going on.
    pub fn run(&self, size: usize, tally: &mut Tally) -> Result<(), String> {
        for strategy in SeekStrategy::ALL {
            let mut words = marked(size);
            let answer = self.expected(strategy, &mut words);
            self.leapt(strategy, answer, &words, tally)?;
            if strategy == SeekStrategy::default() {
                self.plainly(answer, &words, tally)?;
                self.checked(answer.rows, &words, tally)?;
            }
        }
        after::any(self, size, tally)
    }
}

/// Every size from two rows and a word short of full to a row and a word over it, and from none to a row and a word.
fn windows(n: usize, rows: usize) -> Vec<usize> {
    let full = n * rows;
    let mut sizes: Vec<usize> = (full.saturating_sub(2 * n + 1)..=full + n + 1).chain(0..=n + 1).collect();
    sizes.sort();
    sizes.dedup();
    sizes
}

/// What a window gets of a join that passes the checks: kermit's rows and seeks if it is whole rows.
fn written(n: usize, found: &kermit::Found, window: &mut [u64]) -> Joined {
    if window.len() % n != 0 {
        return Joined { number: 16, rows: 0, seeks: 0 };
    }
    let joined = model::windowed(n, &found.rows, window);
    Joined { seeks: found.seeks(joined.rows as usize), ..joined }
}

impl Joins {
    /// Runs a call of this join, which passes the checks where the window is whole rows.
    pub fn run_call(&self, call: &Call, tally: &mut Tally) -> Result<(), String> {
        let n = self.order.len();
        tally.same(model::join_number(&call.pool, &call.tables, &call.query, 0), 0, || "the query passes the checks".into())?;
        // The definition tries every row.
        let few = self.tables.iter().all(|(_, rows)| rows.len() <= 100);
        let by_definition = few.then(|| model::answers(&call.pool, &call.tables, &call.query));
        for strategy in SeekStrategy::ALL {
            let found = self.found(strategy);
            let rows = &found.rows;
            if let Some(by_definition) = &by_definition {
                tally.same(by_definition, rows, || format!("{strategy:?}, rows by the definition and kermit's"))?;
            }
            for size in windows(n, rows.len()) {
                let mut words = marked(size);
                let answer = written(n, &found, &mut words);
                call.leapt(strategy, answer, &words, tally)?;
                if strategy == SeekStrategy::default() {
                    call.plainly(answer, &words, tally)?;
                }
            }
        }
        Ok(())
    }
}

impl Case for Joins {
    fn run(&self, tally: &mut Tally) -> Result<(), String> {
        self.run_call(&self.call(&vec![Kinds::default(); self.tables.len()]), tally)
    }

    fn smaller(&self) -> Vec<Self> {
        let mut all = vec![];
        for atoms in shorter(&self.atoms) {
            if self.order.iter().all(|v| atoms.iter().any(|(_, list)| list.contains(v))) {
                all.push(Joins { atoms, ..self.clone() });
            }
        }
        for (i, (arity, rows)) in self.tables.iter().enumerate() {
            all.extend(smaller_rows(rows).into_iter().map(|rows| {
                let mut tables = self.tables.clone();
                tables[i] = (*arity, rows);
                Joins { tables, ..self.clone() }
            }));
        }
        all
    }
}

/// All triangles over relations of keys 0 and 1, and all paths of two atoms over one relation of keys 0 to 2 with up to four rows, in every order.
pub fn exhaustive() -> impl Iterator<Item = Joins> {
    let pairs = crate::cursors::subsets(&all_rows(2, 2), 4);
    let all = pairs.clone();
    let triples = pairs.into_iter().flat_map(move |r| {
        let all = all.clone();
        let again = all.clone();
        all.into_iter().flat_map(move |s| {
            let r = r.clone();
            again.clone().into_iter().map(move |t| [r.clone(), s.clone(), t])
        })
    });
    let triangles = triples.enumerate().map(|(i, relations)| {
        let order = [[0, 1, 2], [0, 2, 1], [1, 0, 2], [1, 2, 0], [2, 0, 1], [2, 1, 0]][i % 6].to_vec();
        let follow = |u: usize, v: usize| order.iter().copied().filter(|&w| w == u || w == v).collect::<Vec<_>>();
        let atoms = vec![(0, follow(0, 1)), (1, follow(1, 2)), (2, follow(0, 2))];
        Joins { tables: relations.into_iter().map(|rows| (2, rows)).collect(), atoms, order }
    });
    triangles.chain(paths())
}

/// All paths of two atoms over one relation of keys 0 to 2 with up to four rows.
pub fn paths() -> impl Iterator<Item = Joins> {
    crate::cursors::subsets(&all_rows(2, 3), 4).into_iter().map(|rows| Joins {
        order: vec![0, 1, 2],
        tables: vec![(2, rows)],
        atoms: vec![(0, vec![0, 1]), (0, vec![1, 2])],
    })
}

/// Over tables with as many rows as they can have: all rows of one, what a small one leaves of it, and a triangle.
pub fn large(rng: &mut Rng) -> Vec<Joins> {
    let full = (2, distinct(rng, 2, MOST));
    let some = (1, (0..9).map(|_| vec![rng.below(800) as u64]).collect());
    let sparse = [0; 3].map(|_| (2, (0..MOST).map(|_| vec![rng.below(9000) as u64, rng.below(9000) as u64]).collect()));
    vec![
        Joins { order: vec![1, 0], tables: vec![full.clone()], atoms: vec![(0, vec![1, 0])] },
        Joins { order: vec![0, 1], tables: vec![full, some], atoms: vec![(0, vec![0, 1]), (1, vec![1])] },
        Joins { order: vec![0, 1, 2], tables: sparse.into(), atoms: vec![(0, vec![0, 1]), (1, vec![1, 2]), (2, vec![0, 2])] },
    ]
}

pub fn random(rng: &mut Rng) -> Joins {
    let n = rng.within(1, 6);
    let mut order: Vec<usize> = (0..n).collect();
    rng.shuffle(&mut order);
    let count = rng.within(1, 8);
    let mut lists: Vec<Vec<usize>> = (0..count)
        .map(|_| {
            let mut list = order.clone();
            rng.shuffle(&mut list);
            list.truncate(rng.within(1, n.min(3)));
            list
        })
        .collect();
    for v in 0..n {
        if !lists.iter().any(|list| list.contains(&v)) {
            lists[rng.below(count)].push(v);
        }
    }
    let keys = rng.keys();
    let most = rng.pick(&[2, 6, 25]);
    let mut tables: Vec<(usize, Vec<Row>)> = vec![];
    let mut atoms = vec![];
    for mut list in lists {
        list.sort_by_key(|v| order.iter().position(|w| w == v));
        let shared: Vec<usize> = (0..tables.len()).filter(|&i| tables[i].0 == list.len()).collect();
        let table = if !shared.is_empty() && rng.below(3) == 0 {
            rng.pick(&shared)
        } else {
            let count = rng.within(0, 2 * most).min(most);
            let rows = (0..count).map(|_| rng.row(list.len(), keys)).collect();
            tables.push((list.len(), rows));
            tables.len() - 1
        };
        atoms.push((table, list));
    }
    Joins { order, tables, atoms }
}

/// A join some of whose variables are grades; so are all the columns that they bind, and all variables that bind one of these.
#[derive(Clone)]
pub struct Graded {
    pub base: Joins,
    pub grades: Vec<usize>,
}

impl fmt::Display for Graded {
    fn fmt(&self, f: &mut fmt::Formatter) -> fmt::Result {
        write!(f, "{}\ngrades {:?}", self.base, self.grades)
    }
}

impl Graded {
    /// Without grades.
    pub fn plain(base: Joins) -> Graded {
        Graded { base, grades: vec![] }
    }

    pub fn call(&self) -> Call {
        self.base.call(&self.kinds())
    }

    pub fn kinds(&self) -> Vec<Kinds> {
        let mut is_grade: Vec<bool> = (0..self.base.order.len()).map(|v| self.grades.contains(&v)).collect();
        let mut kinds = vec![Kinds::default(); self.base.tables.len()];
        loop {
            let before = (is_grade.clone(), kinds.clone());
            for (table, variables) in &self.base.atoms {
                for (grade, &v) in kinds[*table].grade.iter_mut().zip(variables) {
                    *grade |= is_grade[v];
                    is_grade[v] |= *grade;
                }
            }
            if before == (is_grade.clone(), kinds.clone()) {
                return kinds;
            }
        }
    }
}

impl Case for Graded {
    fn run(&self, tally: &mut Tally) -> Result<(), String> {
        self.base.run_call(&self.call(), tally)
    }

    fn smaller(&self) -> Vec<Self> {
        let fewer = shorter(&self.grades).into_iter().map(|grades| Graded { grades, ..self.clone() });
        fewer.chain(self.base.smaller().into_iter().map(|base| Graded { base, ..self.clone() })).collect()
    }
}

pub fn graded(rng: &mut Rng) -> Graded {
    let base = random(rng);
    let grades = (0..rng.below(3)).map(|_| rng.below(base.order.len())).collect();
    Graded { base, grades }
}

/// A query with some words and kinds changed: its number, rows and window by document 01.
#[derive(Clone)]
pub struct Changed {
    base: Graded,
    /// Which word, counted through the query, the tables' count and headers, and the pool; and what it becomes.
    changes: Vec<(usize, u64)>,
    /// Table and column of each kind that becomes the other one.
    kinds: Vec<(usize, usize)>,
    window: usize,
}

impl fmt::Display for Changed {
    fn fmt(&self, f: &mut fmt::Formatter) -> fmt::Result {
        writeln!(f, "{}", self.base)?;
        write!(f, "words changed {:?}, kinds changed {:?}, window of {}", self.changes, self.kinds, self.window)
    }
}

/// The words of a join's arguments, one by one.
pub fn words(call: &mut Call) -> Vec<&mut u64> {
    let Call { pool, tables, query } = call;
    let mut all = vec![&mut query.n, &mut query.atom_count, &mut tables.count];
    all.extend(&mut query.order);
    for atom in &mut query.atoms {
        all.push(&mut atom.table);
        all.push(&mut atom.len);
        all.extend(&mut atom.variables);
        all.push(&mut atom.maker);
    }
    all.extend(tables.tables.iter_mut().flat_map(crate::damage::header_words));
    all.extend(pool);
    all
}

impl Case for Changed {
    fn run(&self, tally: &mut Tally) -> Result<(), String> {
        let mut call = self.base.call();
        self.kinds.iter().for_each(|&(table, column)| call.tables.tables[table].grade[column] ^= true);
        let mut all = words(&mut call);
        for &(i, word) in &self.changes {
            let len = all.len();
            *all[i % len] = word;
        }
        call.run(self.window, tally)
    }

    fn smaller(&self) -> Vec<Self> {
        let mut all: Vec<Changed> =
            shorter(&self.changes).into_iter().map(|changes| Changed { changes, ..self.clone() }).collect();
        all.extend(shorter(&self.kinds).into_iter().map(|kinds| Changed { kinds, ..self.clone() }));
        all.extend(self.base.smaller().into_iter().map(|base| Changed { base, ..self.clone() }));
        all
    }
}

/// A triangle over small tables.
fn triangle() -> Graded {
    let table = || (2, vec![vec![0, 1], vec![1, 2], vec![1, 1]]);
    Graded::plain(Joins {
        order: vec![0, 1, 2],
        tables: vec![table(), table(), table()],
        atoms: vec![(0, vec![0, 1]), (1, vec![1, 2]), (2, vec![0, 2])],
    })
}

/// A triangle with every choice of kinds for its six columns and one past the arity, over words as they are and over damaged ones, into a window of whole
/// rows and into one that is not.
pub fn every_kind() -> impl Iterator<Item = Changed> {
    let columns: Vec<(usize, usize)> = vec![(0, 0), (0, 1), (1, 0), (1, 1), (2, 0), (2, 1), (2, 2)];
    // The count of the first table's tuples.
    let damage = [vec![], vec![(QUERY + 3, 9)]];
    (0..1 << columns.len()).flat_map(move |chosen: usize| {
        let kinds: Vec<_> = columns.iter().enumerate().filter(|(i, _)| chosen >> i & 1 == 1).map(|(_, &column)| column).collect();
        let made =
            |changes: &Vec<_>, window| Changed { base: triangle(), changes: changes.clone(), kinds: kinds.clone(), window };
        damage.iter().flat_map(|changes| [made(changes, 9), made(changes, 10)]).collect::<Vec<_>>()
    })
}

/// No variables and no atoms, into windows of up to three words.
pub fn no_variables() -> impl Iterator<Item = Changed> {
    (0..4).map(|window| Changed { base: triangle(), changes: vec![(0, 0), (1, 0)], kinds: vec![], window })
}

/// How many words a query and the tables' count have.
pub const QUERY: usize = 3 + 8 + 8 * 11;

pub fn changed(rng: &mut Rng) -> Changed {
    let base = graded(rng);
    // The query's own words more often than the rest.
    let changes = (0..rng.within(0, 3))
        .map(|_| {
            let i = if rng.below(3) == 0 { rng.below(2000) } else { rng.below(QUERY) };
            let odd = [u64::MAX, 1 << 63, 1 << 32, model::MAX_CAPACITY, 9, 8, 7];
            let word = if rng.below(4) == 0 { rng.pick(&odd) } else { rng.below(6) as u64 };
            (i, word)
        })
        .collect();
    let kinds = (0..rng.below(6) / 3).map(|_| (rng.below(base.base.tables.len()), rng.below(4))).collect();
    // Whole rows more often than not.
    let (n, words) = (base.base.order.len(), rng.below(30));
    let window = if rng.below(4) == 0 { words } else { words / n * n };
    Changed { base, changes, kinds, window }
}
