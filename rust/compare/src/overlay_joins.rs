//! Joins over atoms that are laid over: rows, numbers, window words and seeks against kermit's join over tables that it builds afresh from the rows that count;
//! of both engines, as in joins.rs.
use crate::case::{shorter, show_rows, smaller_rows, Case, Tally};
use crate::cursors::subsets;
use crate::joins::{self, words, Call, Joins, QUERY};
use crate::model::{self, Row};
use crate::model_overlay::counting;
use crate::overlay::{dealt, front, front_header};
use crate::rng::Rng;
use crate::tables::{all_rows, distinct, MOST};
use ducatbriar::calls::*;
use std::fmt;

/// An atom: its table, the maker's if it is laid over one, and its variables.
#[derive(Clone, Debug)]
pub struct Over {
    table: usize,
    maker: Option<usize>,
    variables: Vec<usize>,
}

#[derive(Clone)]
pub struct LaidJoins {
    order: Vec<usize>,
    /// Arity and rows of each table.
    tables: Vec<(usize, Vec<Row>)>,
    /// More tables: each the front of one of those, in the same words, so many first keys long.
    fronts: Vec<(usize, usize)>,
    atoms: Vec<Over>,
    /// Variables that are grades.
    grades: Vec<usize>,
}

impl fmt::Display for LaidJoins {
    fn fmt(&self, f: &mut fmt::Formatter) -> fmt::Result {
        writeln!(f, "order {:?}, grades {:?}", self.order, self.grades)?;
        for (i, (arity, rows)) in self.tables.iter().enumerate() {
            writeln!(f, "table {i}, arity {arity}: {}", show_rows(rows))?;
        }
        for (i, (of, firsts)) in self.fronts.iter().enumerate() {
            writeln!(f, "table {}: the first {firsts} keys of {of}", self.tables.len() + i)?;
        }
        write!(f, "{:?}", self.atoms)
    }
}

impl LaidJoins {
    pub fn variables(&self) -> usize {
        self.order.len()
    }

    fn rows(&self, table: usize) -> Vec<Row> {
        match table.checked_sub(self.tables.len()) {
            None => self.tables[table].1.clone(),
            Some(i) => front(&self.tables[self.fronts[i].0].1, self.fronts[i].1),
        }
    }

    /// The table whose words these are.
    fn words_of(&self, table: usize) -> usize {
        table.checked_sub(self.tables.len()).map_or(table, |i| self.fronts[i].0)
    }

    /// The same join with a table built afresh for each atom.
    pub fn afresh(&self) -> Joins {
        let rows = |atom: &Over| match atom.maker {
            None => self.rows(atom.table),
            Some(maker) => counting(&self.rows(atom.table), &self.rows(maker)),
        };
        Joins {
            order: self.order.clone(),
            tables: self.atoms.iter().map(|atom| (atom.variables.len(), rows(atom))).collect(),
            atoms: self.atoms.iter().enumerate().map(|(i, atom)| (i, atom.variables.clone())).collect(),
        }
    }

    /// A variable that is a grade makes grades of all columns that it binds, in both tables of an atom, and those of all variables that bind them.
    fn kinds(&self) -> Vec<Kinds> {
        let mut is_grade: Vec<bool> = (0..self.order.len()).map(|v| self.grades.contains(&v)).collect();
        let mut kinds = vec![Kinds::default(); self.tables.len()];
        loop {
            let before = (is_grade.clone(), kinds.clone());
            for atom in &self.atoms {
                for table in [Some(atom.table), atom.maker].into_iter().flatten() {
                    for (grade, &v) in kinds[self.words_of(table)].grade.iter_mut().zip(&atom.variables) {
                        *grade |= is_grade[v];
                        is_grade[v] |= *grade;
                    }
                }
            }
            if before == (is_grade.clone(), kinds.clone()) {
                return kinds;
            }
        }
    }

    pub fn call(&self) -> Call {
        let stored = Joins { order: self.order.clone(), tables: self.tables.clone(), atoms: vec![] };
        let mut call = stored.call(&self.kinds());
        for &(of, firsts) in &self.fronts {
            let count = call.tables.count as usize;
            call.tables.tables[count] = front_header(&call.pool, call.tables.tables[of], firsts);
            call.tables.count += 1;
        }
        call.query.atom_count = self.atoms.len() as u64;
        for (place, atom) in call.query.atoms.iter_mut().zip(&self.atoms) {
            // A plain atom's maker is not looked at.
            let maker = atom.maker.map_or(u64::MAX, |maker| maker as u64);
            let laid_over = atom.maker.is_some();
            *place = Atom { table: atom.table as u64, len: atom.variables.len() as u64, laid_over, maker, ..Default::default() };
            place.variables.iter_mut().zip(&atom.variables).for_each(|(place, &v)| *place = v as u64);
        }
        call
    }
}

impl Case for LaidJoins {
    fn run(&self, tally: &mut Tally) -> Result<(), String> {
        self.afresh().run_call(&self.call(), tally)
    }

    fn smaller(&self) -> Vec<Self> {
        let mut all = vec![];
        for atoms in shorter(&self.atoms) {
            if self.order.iter().all(|v| atoms.iter().any(|atom| atom.variables.contains(v))) {
                all.push(LaidJoins { atoms, ..self.clone() });
            }
        }
        for i in 0..self.atoms.len() {
            let mut atoms = self.atoms.clone();
            if atoms[i].maker.take().is_some() {
                all.push(LaidJoins { atoms, ..self.clone() });
            }
        }
        all.extend(shorter(&self.grades).into_iter().map(|grades| LaidJoins { grades, ..self.clone() }));
        for (i, (arity, rows)) in self.tables.iter().enumerate() {
            all.extend(smaller_rows(rows).into_iter().map(|rows| {
                let mut tables = self.tables.clone();
                tables[i] = (*arity, rows);
                LaidJoins { tables, ..self.clone() }
            }));
        }
        all
    }
}

fn over(table: usize, maker: usize, variables: &[usize]) -> Over {
    Over { table, maker: Some(maker), variables: variables.to_vec() }
}

fn plain(table: usize, variables: &[usize]) -> Over {
    Over { table, maker: None, variables: variables.to_vec() }
}

/// One atom, and a path of two atoms, over all tables of two columns over the keys 0 and 1, one over another; two atoms over all tables of one column over the
/// keys 0 to 2, laid over with a plain one and with each other; and each table as both.
pub fn exhaustive() -> impl Iterator<Item = LaidJoins> {
    let pairs = subsets(&all_rows(2, 2), 4);
    let again = pairs.clone();
    let wide = pairs.into_iter().flat_map(move |school| {
        again.clone().into_iter().flat_map(move |maker| {
            let tables = vec![(2, school.clone()), (2, maker)];
            let one = vec![over(0, 1, &[0, 1])];
            let path = vec![over(0, 1, &[0, 1]), over(1, 0, &[1, 2])];
            let same = vec![over(0, 0, &[0, 1]), over(0, 1, &[0, 1])];
            [(2, one), (3, path), (2, same)].map(|(n, atoms)| LaidJoins {
                order: (0..n).collect(),
                tables: tables.clone(),
                fronts: vec![],
                atoms,
                grades: vec![],
            })
        })
    });
    let singles = subsets(&all_rows(1, 3), 3);
    let (second, third) = (singles.clone(), singles.clone());
    let narrow = singles.into_iter().flat_map(move |a| {
        let third = third.clone();
        second.clone().into_iter().flat_map(move |b| {
            let a = a.clone();
            third.clone().into_iter().flat_map(move |c| {
                let tables = vec![(1, a.clone()), (1, b.clone()), (1, c)];
                [vec![over(0, 1, &[0]), plain(2, &[0])], vec![over(0, 1, &[0]), over(1, 2, &[0]), over(2, 0, &[0])]]
                    .map(|atoms| LaidJoins { order: vec![0], tables: tables.clone(), fronts: vec![], atoms, grades: vec![] })
            })
        })
    });
    wide.chain(narrow)
}

/// A random join some of whose atoms are laid over: over rows dealt in runs that alternate, over another table of the arity, over itself, over or under a front of
/// itself, or over an empty one.
pub fn random(rng: &mut Rng) -> LaidJoins {
    let base = joins::random(rng);
    let mut made = LaidJoins { order: base.order, tables: base.tables, fronts: vec![], atoms: vec![], grades: vec![] };
    let few = |made: &LaidJoins| made.tables.len() + made.fronts.len() < 8;
    for (table, variables) in base.atoms {
        let arity = variables.len();
        let others: Vec<usize> = (0..made.tables.len()).filter(|&i| made.tables[i].0 == arity).collect();
        let atom = match rng.below(8) {
            0 | 1 => plain(table, &variables),
            2 => over(table, rng.pick(&others), &variables),
            3 => over(table, table, &variables),
            4 if few(&made) => {
                made.fronts.push((table, rng.below(4)));
                let number = usize::MAX - made.fronts.len();
                if rng.below(2) == 0 {
                    over(table, number, &variables)
                } else {
                    over(number, table, &variables)
                }
            }
            5 if few(&made) => {
                made.tables.push((arity, vec![]));
                let number = made.tables.len() - 1;
                if rng.below(2) == 0 {
                    over(table, number, &variables)
                } else {
                    over(number, table, &variables)
                }
            }
            _ if few(&made) => {
                let [school, maker] = dealt(rng, &made.tables[table].1.clone());
                made.tables[table].1 = school;
                made.tables.push((arity, maker));
                over(table, made.tables.len() - 1, &variables)
            }
            _ => over(table, rng.pick(&others), &variables),
        };
        made.atoms.push(atom);
    }
    // Fronts are numbered behind the tables, of which there were not yet all.
    let settled = |number: usize| if number < 8 { number } else { made.tables.len() + (usize::MAX - 1 - number) };
    let atoms = made.atoms.iter().map(|atom| Over {
        table: settled(atom.table),
        maker: atom.maker.map(settled),
        variables: atom.variables.clone(),
    });
    let atoms = atoms.collect();
    let grades = (0..rng.below(3) / 2).map(|_| rng.below(made.order.len())).collect();
    LaidJoins { atoms, grades, ..made }
}

/// Over as many rows as a table can have, in runs that alternate: all rows of one, what a small one leaves of it, and a triangle of three.
pub fn large(rng: &mut Rng) -> Vec<LaidJoins> {
    let full = distinct(rng, 2, MOST);
    let some = (0..9).map(|_| vec![rng.below(800) as u64]).collect();
    let mut tables: Vec<(usize, Vec<Row>)> = dealt(rng, &full).map(|rows| (2, rows)).into();
    tables.push((1, some));
    let made = |order: &[usize], tables: &[(usize, Vec<Row>)], atoms| LaidJoins {
        order: order.to_vec(),
        tables: tables.to_vec(),
        fronts: vec![],
        atoms,
        grades: vec![],
    };
    let mut all = vec![
        made(&[1, 0], &tables, vec![over(0, 1, &[1, 0])]),
        made(&[0, 1], &tables, vec![over(0, 1, &[0, 1]), plain(2, &[0])]),
        made(&[0, 1], &tables, vec![over(0, 1, &[0, 1]), plain(2, &[1])]),
    ];
    let mut sides = vec![];
    for _ in 0..3 {
        let rows: Vec<Row> = (0..MOST).map(|_| vec![rng.below(9000) as u64, rng.below(9000) as u64]).collect();
        sides.extend(dealt(rng, &rows).map(|rows| (2, rows)));
    }
    all.push(made(&[0, 1, 2], &sides, vec![over(0, 1, &[0, 1]), over(2, 3, &[1, 2]), over(4, 5, &[0, 2])]));
    all
}

/// A laid-over join with some words, kinds and choices to lay over changed: its number, rows, seeks and window by documents 01 and 02.
#[derive(Clone)]
pub struct LaidChanged {
    base: LaidJoins,
    /// As in `joins::Changed`.
    changes: Vec<(usize, u64)>,
    kinds: Vec<(usize, usize)>,
    /// Atoms that become plain, or laid over.
    flips: Vec<usize>,
    window: usize,
}

impl fmt::Display for LaidChanged {
    fn fmt(&self, f: &mut fmt::Formatter) -> fmt::Result {
        writeln!(f, "{}", self.base)?;
        write!(f, "words changed {:?}, kinds changed {:?}, ", self.changes, self.kinds)?;
        write!(f, "atoms changed {:?}, window of {}", self.flips, self.window)
    }
}

impl Case for LaidChanged {
    fn run(&self, tally: &mut Tally) -> Result<(), String> {
        let mut call = self.base.call();
        self.kinds.iter().for_each(|&(table, column)| call.tables.tables[table].grade[column] ^= true);
        self.flips.iter().for_each(|&atom| call.query.atoms[atom].laid_over ^= true);
        let mut all = words(&mut call);
        for &(i, word) in &self.changes {
            let len = all.len();
            *all[i % len] = word;
        }
        call.run(self.window, tally)
    }

    fn smaller(&self) -> Vec<Self> {
        let mut all: Vec<LaidChanged> =
            shorter(&self.changes).into_iter().map(|changes| LaidChanged { changes, ..self.clone() }).collect();
        all.extend(shorter(&self.kinds).into_iter().map(|kinds| LaidChanged { kinds, ..self.clone() }));
        all.extend(shorter(&self.flips).into_iter().map(|flips| LaidChanged { flips, ..self.clone() }));
        all.extend(self.base.smaller().into_iter().map(|base| LaidChanged { base, ..self.clone() }));
        all
    }
}

pub fn changed(rng: &mut Rng) -> LaidChanged {
    let base = random(rng);
    let changes = (0..rng.below(3))
        .map(|_| {
            let i = if rng.below(3) == 0 { rng.below(2000) } else { rng.below(QUERY) };
            let odd = [u64::MAX, 1 << 63, 1 << 32, model::MAX_CAPACITY, 9, 8, 7];
            (i, if rng.below(4) == 0 { rng.pick(&odd) } else { rng.below(6) as u64 })
        })
        .collect();
    let kinds = (0..rng.below(6) / 3).map(|_| (rng.below(8), rng.below(4))).collect();
    let flips = (0..rng.below(6) / 4).map(|_| rng.below(8)).collect();
    let (n, words) = (base.order.len(), rng.below(30));
    let window = if rng.below(4) == 0 { words } else { words / n * n };
    LaidChanged { base, changes, kinds, flips, window }
}

/// A join of one atom with every choice of: a table that is not there, one of another arity, of other kinds, a damaged one, a good one, for the school and for the
/// maker; plain or laid over; into windows of no, some and part of a row: 9, 10, 15, 16, 6, 17 and 12 in their sequence.
pub fn every_number() -> impl Iterator<Item = LaidChanged> {
    let rows = || vec![vec![0, 1], vec![1, 2]];
    let base = LaidJoins {
        order: vec![0, 1],
        tables: vec![(2, rows()), (2, rows()), (2, rows()), (3, vec![vec![0, 1, 2]]), (2, rows())],
        fronts: vec![],
        atoms: vec![plain(0, &[0, 1]), over(0, 1, &[0, 1])],
        grades: vec![],
    };
    // Table 1 has a grade, and the count of table 2's rows is wrong.
    let wrong = (QUERY + 2 * 20 + 3, 9);
    (0..6u64).flat_map(move |school| {
        let base = base.clone();
        (0..6u64).flat_map(move |maker| {
            let base = base.clone();
            [0, 1, 2, 3, 8].into_iter().flat_map(move |window| {
                let base = base.clone();
                [vec![], vec![1], vec![0]].into_iter().map(move |flips| LaidChanged {
                    base: base.clone(),
                    // The words of the second atom: its table, and its maker behind its list.
                    changes: vec![wrong, (11 + 11, school), (11 + 11 + 10, maker)],
                    kinds: vec![(1, 0)],
                    flips,
                    window,
                })
            })
        })
    })
}
