//! The kinds of columns, and words by the kind of their column.
use crate::calls::{self, Kinds};
use crate::limits::MAX_ARITY;
use std::fmt;

/// What the words of a column are. A join refuses a variable that binds columns of both kinds.
#[derive(Clone, Copy, Debug, Default, PartialEq, Eq, Hash)]
pub enum Kind {
    /// Words: surfaces, tyres, bands, whatever a caller numbers.
    #[default]
    Plain,
    /// Grades, each kept as its word ([`word_of`](crate::word_of)).
    Grade,
}

impl Kind {
    /// What a word of such a column says.
    ///
    /// ```
    /// use ducatbriar::{word_of, Cell, Kind};
    /// assert_eq!(Kind::Grade.cell(word_of(-60)), Cell::Grade(-60));
    /// assert_eq!(Kind::Plain.cell(7), Cell::Plain(7));
    /// ```
    pub fn cell(self, word: u64) -> Cell {
        match self {
            Kind::Plain => Cell::Plain(word),
            Kind::Grade => Cell::Grade(calls::grade_of(word)),
        }
    }

    pub(crate) fn of(is_grade: bool) -> Kind {
        if is_grade {
            Kind::Grade
        } else {
            Kind::Plain
        }
    }
}

/// A word of a row, by the kind of its column. Those of one column compare as their words do.
#[derive(Clone, Copy, Debug, PartialEq, Eq, PartialOrd, Ord, Hash)]
pub enum Cell {
    Plain(u64),
    /// In thousandths; below 0 it goes downhill.
    Grade(i64),
}

impl Cell {
    pub fn kind(self) -> Kind {
        match self {
            Cell::Plain(_) => Kind::Plain,
            Cell::Grade(_) => Kind::Grade,
        }
    }

    /// The word that a table keeps.
    pub fn word(self) -> u64 {
        match self {
            Cell::Plain(word) => word,
            Cell::Grade(grade) => calls::word_of(grade),
        }
    }
}

impl From<u64> for Cell {
    fn from(word: u64) -> Cell {
        Cell::Plain(word)
    }
}

/// The word, or the grade in thousandths.
impl fmt::Display for Cell {
    fn fmt(&self, f: &mut fmt::Formatter) -> fmt::Result {
        match self {
            Cell::Plain(word) => word.fmt(f),
            Cell::Grade(grade) => grade.fmt(f),
        }
    }
}

/// As the calls take them; kinds past those given are plain.
pub(crate) fn kinds_of(kinds: &[Kind]) -> Kinds {
    let mut all = Kinds::default();
    all.grade.iter_mut().zip(kinds).for_each(|(grade, &kind)| *grade = kind == Kind::Grade);
    all
}

/// The words of a row for columns of these kinds. A row of another length gets its words too: the call refuses it.
pub(crate) fn words_of(kinds: &[Kind], cells: &[Cell]) -> Vec<u64> {
    for (column, (&kind, cell)) in kinds.iter().zip(cells).enumerate() {
        assert!(cell.kind() == kind, "{cell:?} in column {column}, which is {kind:?}");
    }
    cells.iter().map(|cell| cell.word()).collect()
}

/// The kinds of the first `arity` columns.
pub(crate) fn leading(grade: [bool; MAX_ARITY], arity: usize) -> Vec<Kind> {
    grade.into_iter().take(arity).map(Kind::of).collect()
}
