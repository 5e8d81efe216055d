//! A school's table laid over a maker's: lookups and cursors. In joins it is an atom ([`Query::laid_over`](crate::Query::laid_over)).
use crate::calls::{self, LaidIter, LaidSeekAnswer, Lent, SeekStrategy};
use crate::{Pool, Refusal, Table};

/// A school's table laid over a maker's of the same arity and kinds. The rows that count are all of the school's, and those of the maker's whose first key the
/// school's lacks. Each table comes with its own pool; both may lie in the same.
///
/// ```
/// # fn main() -> Result<(), ducatbriar::Refusal> {
/// use ducatbriar::{Laid, Pool};
/// let (mut ours, mut theirs) = (Pool::new(), Pool::new());
/// let school = ours.build(2, 4, &[[8, 850], [9, 160]])?;
/// let maker = theirs.build(2, 4, &[[7, 470], [8, 900], [8, 910]])?;
/// let laid = Laid::new((&ours, &school), (&theirs, &maker));
/// assert_eq!(laid.lookup(7)?, [470]);
/// assert_eq!(laid.lookup(8)?, [850]);
/// assert!(laid.lookup(10)?.is_empty());
/// # Ok(())
/// # }
/// ```
#[derive(Clone, Copy, Debug)]
pub struct Laid<'a> {
    school: Lent<'a>,
    maker: Lent<'a>,
}

impl<'a> Laid<'a> {
    /// Nothing is checked here. Two tables that can't be laid over one another are refused by each call.
    pub fn new(school: (&'a Pool, &'a Table), maker: (&'a Pool, &'a Table)) -> Laid<'a> {
        let lent = |(pool, table): (&'a Pool, &Table)| Lent { pool: pool.words(), table: table.header() };
        Laid { school: lent(school), maker: lent(maker) }
    }

    /// The sibling keys under a first key, ascending, as they lie in the school's pool or in the maker's; none if neither has the key.
    pub fn lookup(&self, key: u64) -> Result<&'a [u64], Refusal> {
        let found = calls::lookup(self.school, self.maker, key);
        Refusal::check(found.number).map(|()| found.run(self.school.pool, self.maker.pool))
    }

    /// A cursor at the root.
    pub fn cursor(&self, strategy: SeekStrategy) -> LaidCursor<'a> {
        LaidCursor { laid: *self, strategy, iter: LaidIter::new(), probes: 0 }
    }
}

/// A cursor over the rows that count: a trie iterator, as [`Cursor`](crate::Cursor) is over one table.
///
/// ```
/// # fn main() -> Result<(), ducatbriar::Refusal> {
/// use ducatbriar::{Laid, Pool, SeekStrategy};
/// let mut pool = Pool::new();
/// let school = pool.build(2, 4, &[[8, 850]])?;
/// let maker = pool.build(2, 4, &[[7, 470], [8, 900], [9, 160]])?;
/// let mut cursor = Laid::new((&pool, &school), (&pool, &maker)).cursor(SeekStrategy::Galloping);
/// assert!(cursor.open()?);
/// assert_eq!(cursor.key()?, Some(7));
/// assert_eq!(cursor.next_key()?, Some(8));
/// assert!(cursor.open()?);
/// assert_eq!(cursor.key()?, Some(850));
/// assert_eq!(cursor.next_key()?, None);
/// assert!(cursor.up()?);
/// assert!(cursor.find(9)?);
/// assert_eq!(cursor.next_key()?, None);
/// # Ok(())
/// # }
/// ```
#[derive(Clone, Debug)]
pub struct LaidCursor<'a> {
    laid: Laid<'a>,
    strategy: SeekStrategy,
    iter: LaidIter,
    probes: u64,
}

impl LaidCursor<'_> {
    /// 0 at the root.
    pub fn depth(&self) -> usize {
        self.iter.school.depth.max(self.iter.maker.depth) as usize
    }

    /// How many keys its seeks have looked at so far, in both tables.
    pub fn probes(&self) -> u64 {
        self.probes
    }

    /// The key it stands on, if there is one.
    pub fn key(&self) -> Result<Option<u64>, Refusal> {
        let answer = self.iter.key(self.laid.school, self.laid.maker);
        Refusal::check(answer.number).map(|()| answer.found.then_some(answer.key))
    }

    /// To the key behind, which it gives.
    pub fn next_key(&mut self) -> Result<Option<u64>, Refusal> {
        let answer = self.iter.next(self.laid.school, self.laid.maker);
        self.iter = answer.iter;
        Refusal::check(answer.number).map(|()| answer.found.then_some(answer.key))
    }

    /// To the first key not yet passed that is not below the target; whether there is one.
    pub fn seek(&mut self, target: u64) -> Result<bool, Refusal> {
        self.sought(target).map(|answer| answer.found)
    }

    /// As [`LaidCursor::seek`]; whether the key it stands on then is the target.
    pub fn find(&mut self, target: u64) -> Result<bool, Refusal> {
        self.sought(target).map(|answer| answer.hit)
    }

    fn sought(&mut self, target: u64) -> Result<LaidSeekAnswer, Refusal> {
        let answer = self.iter.seek(self.laid.school, self.laid.maker, self.strategy, target);
        self.iter = answer.iter;
        self.probes += answer.probes;
        Refusal::check(answer.number).map(|()| answer)
    }

    /// Whether no key is left at this depth; yes at the root.
    pub fn at_end(&self) -> Result<bool, Refusal> {
        let answer = self.iter.at_end(self.laid.school, self.laid.maker);
        Refusal::check(answer.number).map(|()| answer.at_end)
    }

    /// To the first key below the one it stands on; whether there is one.
    pub fn open(&mut self) -> Result<bool, Refusal> {
        let answer = self.iter.open(self.laid.school, self.laid.maker);
        self.iter = answer.iter;
        Refusal::check(answer.number).map(|()| answer.opened)
    }

    /// Back to the key that was opened; no at the root.
    pub fn up(&mut self) -> Result<bool, Refusal> {
        let answer = self.iter.up(self.laid.school, self.laid.maker);
        self.iter = answer.iter;
        Refusal::check(answer.number).map(|()| answer.risen)
    }
}
