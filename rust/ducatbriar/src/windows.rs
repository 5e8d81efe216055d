//! A join a window at a time: what one call writes, and an iterator over the rows that holds one window.
use crate::calls::{self, SeekStrategy, Tables};
use crate::limits::MAX_VARIABLES;
use crate::Refusal;
use std::iter::FusedIterator;

/// What a join wrote into a window, from its first row on or behind a given one.
#[derive(Clone, Copy, Debug, PartialEq, Eq)]
pub struct Piece {
    /// The rows written.
    pub rows: usize,
    /// More rows remain than fit (number 12).
    pub full: bool,
    /// The last row written, or the given one if none was, by variable number: what the next call goes on after. Words behind it are 0.
    pub last: [u64; MAX_VARIABLES],
}

/// Whether the window was too small for all rows (number 12), of a join that isn't refused otherwise.
pub(crate) fn filled(number: u64) -> Result<bool, Refusal> {
    let full = number == Refusal::Full.number();
    if !full {
        Refusal::check(number)?;
    }
    Ok(full)
}

/// What each call of one join is handed but for the given row and the window.
#[derive(Clone, Debug)]
pub(crate) struct Join<'a> {
    pub words: &'a [u64],
    pub strategy: SeekStrategy,
    pub tables: Tables,
    pub query: calls::Query,
}

impl Join<'_> {
    /// One call: from the first row on, or strictly after the given one.
    pub fn piece(&self, after: Option<[u64; MAX_VARIABLES]>, window: &mut [u64]) -> Result<Piece, Refusal> {
        let (goes_on, after) = (after.is_some(), after.unwrap_or_default());
        let joined = calls::join_after(self.strategy, self.words, self.tables, self.query, goes_on, after, window);
        let full = filled(joined.number)?;
        Ok(Piece { rows: joined.rows as usize, full, last: joined.last })
    }
}

/// The rows of a join, one by one, of which it holds one window ([`Pool::windows`](crate::Pool::windows)). The tables can't change while it looks at them.
#[derive(Clone, Debug)]
pub struct Windows<'a> {
    join: Join<'a>,
    width: usize,
    window: Vec<u64>,
    /// What the window holds, and how many of its rows were handed out.
    piece: Piece,
    passed: usize,
}

impl<'a> Windows<'a> {
    /// Fills the first window, so that a join which is refused is refused here. A window without a row would never go on.
    pub(crate) fn new(join: Join<'a>, width: usize, rows: usize) -> Result<Windows<'a>, Refusal> {
        let mut window = vec![0; rows.max(1) * width.min(MAX_VARIABLES)];
        let piece = join.piece(None, &mut window)?;
        Ok(Windows { join, width, window, piece, passed: 0 })
    }

    /// The next row, lent from the window; [`Iterator::next`] gives it in words of its own.
    pub fn next_row(&mut self) -> Option<&[u64]> {
        if self.passed == self.piece.rows && self.piece.full {
            // The checks passed for the first window, and nothing that they look at has changed.
            self.piece = self.join.piece(Some(self.piece.last), &mut self.window).expect("the pool is lent");
            self.passed = 0;
        }
        if self.passed == self.piece.rows {
            return None;
        }
        self.passed += 1;
        Some(&self.window[(self.passed - 1) * self.width..self.passed * self.width])
    }
}

impl Iterator for Windows<'_> {
    type Item = Vec<u64>;

    fn next(&mut self) -> Option<Vec<u64>> {
        self.next_row().map(<[u64]>::to_vec)
    }
}

impl FusedIterator for Windows<'_> {}
