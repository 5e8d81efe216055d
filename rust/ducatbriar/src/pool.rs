//! A pool that owns its tables' words, with cursors and joins over them.
use crate::calls::{self, ColumnTrie, ColumnTrieIter, Columns, SeekAnswer, SeekStrategy, Tables};
use crate::kind::{kinds_of, leading, words_of, Cell, Kind};
use crate::limits::{file, listing, words, MAX_ARITY, MAX_CAPACITY, MAX_VARIABLES};
use crate::windows::{filled, Join, Piece, Windows};
use crate::{Query, Refusal};
use std::ops::Range;

/// The words of tables. It grows with every table that is built, rebuilt or read.
#[derive(Clone, Debug, Default)]
pub struct Pool {
    words: Vec<u64>,
}

/// A table: the header of words in the pool that built, rebuilt or read it. With another pool it is refused with 6, or reads as whatever that pool's words say.
#[derive(Debug, PartialEq, Eq)]
pub struct Table {
    header: ColumnTrie,
}

impl Table {
    pub fn arity(&self) -> usize {
        self.header.arity as usize
    }

    /// How many rows it has room for.
    pub fn capacity(&self) -> usize {
        self.header.capacity as usize
    }

    /// How many distinct rows it holds.
    pub fn len(&self) -> usize {
        self.header.tuple_count as usize
    }

    pub fn is_empty(&self) -> bool {
        self.len() == 0
    }

    /// The kind of each column.
    pub fn kinds(&self) -> Vec<Kind> {
        leading(self.header.grade, self.arity())
    }

    pub fn header(&self) -> ColumnTrie {
        self.header
    }

    /// The table's file: its arity, kinds and rows as bytes, the same on every machine. One table has one file, whatever its capacity and wherever it lies.
    ///
    /// ```
    /// # fn main() -> Result<(), ducatbriar::Refusal> {
    /// let mut pool = ducatbriar::Pool::new();
    /// let table = pool.build(1, 4, &[[258]])?;
    /// assert_eq!(table.to_bytes(&pool)?, [1, 0, 1, 1, 2, 0, 8, 0, 0, 0, 0, 0, 0, 1, 2, 3, 0, 0]);
    /// # Ok(())
    /// # }
    /// ```
    pub fn to_bytes(&self, pool: &Pool) -> Result<Vec<u8>, Refusal> {
        // As if it were at capacity, and had a grade.
        let mut bytes = vec![0; file(self.arity(), self.len())];
        let written = calls::write(&pool.words, self.header, &mut bytes);
        Refusal::check(written.number)?;
        bytes.truncate(written.len as usize);
        Ok(bytes)
    }
}

/// What a join wrote into a window.
#[derive(Clone, Copy, Debug, PartialEq, Eq)]
pub struct Filled {
    /// The rows written.
    pub rows: usize,
    /// More rows exist than fit (number 12).
    pub full: bool,
    /// The seeks that the leapfrogs made, where it is full those up to finding the first row that does not fit; 2^64 - 1 stands for that and all above.
    pub seeks: u64,
}

/// What a check says of a recorded listing.
#[derive(Clone, Debug, PartialEq, Eq)]
pub enum Verdict {
    /// It is the query's complete listing, row by row.
    Accepted,
    /// The row of this number, counted from 0, is no answer, or does not come strictly after the row before it; those before it are good.
    Wrong(usize),
    /// Every row is good, and this is the least row missing, in the order's sequence.
    Missing(Vec<u64>),
}

/// The rows of a join, in the order in which they were found.
#[derive(Clone, Debug, PartialEq, Eq)]
pub struct Rows {
    kinds: Vec<Kind>,
    count: usize,
    words: Vec<u64>,
}

impl Rows {
    pub fn len(&self) -> usize {
        self.count
    }

    pub fn is_empty(&self) -> bool {
        self.count == 0
    }

    /// The kind of each variable: that of the columns that it binds.
    pub fn kinds(&self) -> &[Kind] {
        &self.kinds
    }

    /// Row i, by variable number.
    fn row(&self, i: usize) -> &[u64] {
        let width = self.kinds.len();
        &self.words[i * width..(i + 1) * width]
    }

    /// Each row, by variable number.
    pub fn iter(&self) -> RowsIter<'_> {
        RowsIter { rows: self, left: 0..self.count }
    }

    /// Each row, by variable number, its grades as grades.
    ///
    /// ```
    /// # fn main() -> Result<(), ducatbriar::Refusal> {
    /// use ducatbriar::{Cell, Kind, Pool};
    /// let mut pool = Pool::new();
    /// let slope = pool.build_with_kinds(&[Kind::Grade, Kind::Plain], 4, &[[Cell::Grade(45), 12.into()], [Cell::Grade(-60), 11.into()]])?;
    /// for row in pool.rows(&slope)?.cells() {
    ///     println!("stretch {}: {} thousandths", row[1], row[0]);
    /// }
    /// assert_eq!(pool.rows(&slope)?.cells().next(), Some(vec![Cell::Grade(-60), Cell::Plain(11)]));
    /// # Ok(())
    /// # }
    /// ```
    pub fn cells(&self) -> impl ExactSizeIterator<Item = Vec<Cell>> + '_ {
        self.iter().map(|row| self.kinds.iter().zip(row).map(|(kind, &word)| kind.cell(word)).collect())
    }
}

/// The rows of [`Rows`], one after another.
#[derive(Clone, Debug)]
pub struct RowsIter<'a> {
    rows: &'a Rows,
    left: Range<usize>,
}

impl<'a> Iterator for RowsIter<'a> {
    type Item = &'a [u64];

    fn next(&mut self) -> Option<&'a [u64]> {
        self.left.next().map(|i| self.rows.row(i))
    }

    fn size_hint(&self) -> (usize, Option<usize>) {
        self.left.size_hint()
    }
}

impl ExactSizeIterator for RowsIter<'_> {}

/// ```
/// # fn main() -> Result<(), ducatbriar::Refusal> {
/// let mut pool = ducatbriar::Pool::new();
/// let table = pool.build(2, 4, &[[1, 3], [1, 2]])?;
/// for row in &pool.rows(&table)? {
///     assert_eq!(row[0], 1);
/// }
/// # Ok(())
/// # }
/// ```
impl<'a> IntoIterator for &'a Rows {
    type Item = &'a [u64];
    type IntoIter = RowsIter<'a>;

    fn into_iter(self) -> RowsIter<'a> {
        self.iter()
    }
}

/// Each row in words of its own.
impl IntoIterator for Rows {
    type Item = Vec<u64>;
    type IntoIter = std::vec::IntoIter<Vec<u64>>;

    fn into_iter(self) -> Self::IntoIter {
        self.iter().map(<[u64]>::to_vec).collect::<Vec<_>>().into_iter()
    }
}

impl Pool {
    pub fn new() -> Pool {
        Pool::default()
    }

    pub fn words(&self) -> &[u64] {
        &self.words
    }

    /// Builds a table of these rows, with room for `capacity` of them and plain columns. A refused build leaves the pool as it was.
    ///
    /// ```
    /// # fn main() -> Result<(), ducatbriar::Refusal> {
    /// let mut pool = ducatbriar::Pool::new();
    /// let table = pool.build(2, 10, &[[2, 4], [1, 3], [1, 2], [1, 3]])?;
    /// assert_eq!(table.len(), 3);
    /// assert_eq!(pool.build(2, 10, &[&[1, 2, 3][..]]).unwrap_err().number(), 4);
    /// # Ok(())
    /// # }
    /// ```
    pub fn build<R: AsRef<[u64]>>(&mut self, arity: usize, capacity: usize, rows: &[R]) -> Result<Table, Refusal> {
        self.built(arity, capacity, rows, &[])
    }

    /// Builds a table with a column of each of these kinds. Grades go in as grades, and ascend in the table.
    ///
    /// ```
    /// # fn main() -> Result<(), ducatbriar::Refusal> {
    /// use ducatbriar::{Cell::{Grade, Plain}, Kind, Pool, Query, Refusal, SeekStrategy};
    /// let mut pool = Pool::new();
    /// let slope = pool.build_with_kinds(&[Kind::Grade, Kind::Plain], 4, &[[Grade(45), Plain(12)], [Grade(-60), Plain(11)]])?;
    /// let tyres = pool.build(1, 4, &[[21]])?;
    /// // A grade is no tyre.
    /// let query = Query::new(&[0, 1]).atom(0, &[0, 1]).atom(1, &[0]);
    /// assert_eq!(pool.join(SeekStrategy::Galloping, &[&slope, &tyres], &query), Err(Refusal::MixedKinds));
    /// # Ok(())
    /// # }
    /// ```
    ///
    /// # Panics
    ///
    /// Where a cell is not of its column's kind.
    pub fn build_with_kinds<R: AsRef<[Cell]>>(&mut self, kinds: &[Kind], capacity: usize, rows: &[R]) -> Result<Table, Refusal> {
        let rows: Vec<_> = rows.iter().map(|row| words_of(kinds, row.as_ref())).collect();
        self.built(kinds.len(), capacity, &rows, kinds)
    }

    fn built<R: AsRef<[u64]>>(&mut self, arity: usize, capacity: usize, rows: &[R], kinds: &[Kind]) -> Result<Table, Refusal> {
        let start = self.room(arity, capacity);
        let mut given = rows.iter().flat_map(|row| row.as_ref()).copied().collect::<Vec<_>>();
        let built = calls::build(&mut given, &mut self.words, start as u64, arity as u64, capacity as u64, kinds_of(kinds));
        // Rows of other lengths could make up whole rows between them.
        let whole = rows.iter().all(|row| row.as_ref().len() == arity);
        let number = if whole || (1..=3).contains(&built.number) { built.number } else { 4 };
        self.taken(start, number, built.table)
    }

    /// Makes room for a table behind the others, and says where it starts. The library refuses any other arity or capacity before it looks at the pool.
    fn room(&mut self, arity: usize, capacity: usize) -> usize {
        let start = self.words.len();
        if (1..=MAX_ARITY).contains(&arity) && (1..=MAX_CAPACITY).contains(&capacity) {
            self.words.resize(start + words(arity, capacity), 0);
        }
        start
    }

    /// The table for which room was made from `start` on; where it is refused the room goes again.
    fn taken(&mut self, start: usize, number: u64, header: ColumnTrie) -> Result<Table, Refusal> {
        if number != 0 {
            self.words.truncate(start);
        }
        Refusal::check(number).map(|()| Table { header })
    }

    /// Reads a file into a table with room for `capacity` rows. A refused read leaves the pool as it was.
    ///
    /// ```
    /// # fn main() -> Result<(), ducatbriar::Refusal> {
    /// use ducatbriar::{Cell, Kind, Pool, Refusal};
    /// let mut maker = Pool::new();
    /// let slope = [[Cell::Grade(-60), Cell::Plain(11)], [Cell::Grade(45), Cell::Plain(12)]];
    /// let slope = maker.build_with_kinds(&[Kind::Grade, Kind::Plain], 4, &slope)?;
    /// let bytes = slope.to_bytes(&maker)?;
    ///
    /// let mut school = Pool::new();
    /// let table = school.read(&bytes, 10)?;
    /// assert_eq!((table.len(), table.capacity(), table.kinds()), (2, 10, slope.kinds()));
    /// assert_eq!(school.rows(&table)?, maker.rows(&slope)?);
    /// assert_eq!(table.to_bytes(&school)?, bytes);
    /// assert_eq!(school.read(&bytes[1..], 10), Err(Refusal::NotAFile));
    /// # Ok(())
    /// # }
    /// ```
    pub fn read(&mut self, bytes: &[u8], capacity: usize) -> Result<Table, Refusal> {
        // The arity is the fourth byte of every file.
        let arity = bytes.get(3).map_or(0, |&arity| usize::from(arity));
        let start = self.room(arity, capacity);
        let read = calls::read(bytes, &mut self.words, start as u64, capacity as u64);
        self.taken(start, read.number, read.table)
    }

    /// Rebuilds a table with its columns permuted, for a query in another order, with room for `capacity` rows: number i names the old column that becomes
    /// column i. The table itself stays. A refused rebuild leaves the pool as it was; as many numbers as there are columns, or it is refused with 8.
    ///
    /// ```
    /// # fn main() -> Result<(), ducatbriar::Refusal> {
    /// use ducatbriar::{Pool, Refusal};
    /// let mut pool = Pool::new();
    /// let road = pool.build(3, 4, &[[7, 10, 3], [7, 11, 2], [9, 12, 1]])?;
    /// let by_stretch = pool.permute(&road, &[1, 2, 0], 4)?;
    /// assert_eq!(pool.rows(&by_stretch)?.iter().collect::<Vec<_>>(), [[10, 3, 7], [11, 2, 7], [12, 1, 9]]);
    /// let back = pool.permute(&by_stretch, &[2, 0, 1], 4)?;
    /// assert_eq!(pool.rows(&back)?, pool.rows(&road)?);
    /// assert_eq!(pool.permute(&road, &[1, 1, 0], 4), Err(Refusal::BadOrder));
    /// # Ok(())
    /// # }
    /// ```
    pub fn permute(&mut self, table: &Table, columns: &[usize], capacity: usize) -> Result<Table, Refusal> {
        let mut numbers = Columns { columns: [u64::MAX; MAX_ARITY] };
        if columns.len() == table.arity() {
            numbers.columns.iter_mut().zip(columns).for_each(|(place, &column)| *place = column as u64);
        }
        let start = self.room(table.arity(), capacity);
        // What the pool grew by is the second pool, in which the table starts at 0.
        let (pool, into) = self.words.split_at_mut(start);
        let permuted = calls::permute(pool, table.header, numbers, into, 0, capacity as u64);
        self.taken(start, permuted.number, ColumnTrie { start: start as u64, ..permuted.table })
    }

    /// Rebuilds the tables of atoms that go against the query's order, and answers these, in a list to put behind that of the tables, with the query over both
    /// lists. An atom that no rebuild makes follow the order, as one that is laid over, stays as it is, and the join says what is wrong with it.
    ///
    /// ```
    /// # fn main() -> Result<(), ducatbriar::Refusal> {
    /// use ducatbriar::{Pool, Query, Refusal, SeekStrategy, Table};
    /// let mut pool = Pool::new();
    /// let road = pool.build(2, 4, &[[7, 10], [7, 11], [9, 12]])?;
    /// let friction = pool.build(2, 4, &[[7, 470], [9, 160]])?;
    /// // Road(surface 0, stretch 1), Friction(surface 0, thousandths 2), by stretch: neither table has the stretch first.
    /// let query = Query::new(&[1, 2, 0]).atom(0, &[0, 1]).atom(1, &[0, 2]);
    /// let tables = [&road, &friction];
    /// assert_eq!(pool.join(SeekStrategy::Galloping, &tables, &query), Err(Refusal::BadList));
    /// let (query, rebuilt) = pool.follow_order(&tables, &query)?;
    /// let tables: Vec<&Table> = tables.into_iter().chain(&rebuilt).collect();
    /// let rows = pool.join(SeekStrategy::Galloping, &tables, &query)?;
    /// assert_eq!(rows.iter().collect::<Vec<_>>(), [[7, 10, 470], [7, 11, 470], [9, 12, 160]]);
    /// # Ok(())
    /// # }
    /// ```
    pub fn follow_order(&mut self, tables: &[&Table], query: &Query) -> Result<(Query, Vec<Table>), Refusal> {
        let mut rebuilt = vec![];
        let query = query.followed(|table, columns| {
            let Some(table) = tables.get(table).filter(|table| table.arity() == columns.len()) else {
                return Ok(None);
            };
            rebuilt.push(self.permute(table, columns, table.capacity())?);
            Ok(Some(tables.len() + rebuilt.len() - 1))
        })?;
        Ok((query, rebuilt))
    }

    /// Inserts a row, and says whether it was new.
    ///
    /// ```
    /// # fn main() -> Result<(), ducatbriar::Refusal> {
    /// let mut pool = ducatbriar::Pool::new();
    /// let mut table = pool.build(2, 2, &[[1, 3], [2, 4]])?;
    /// assert!(!pool.insert(&mut table, &[1, 3])?);
    /// assert_eq!(pool.insert(&mut table, &[1, 2]).unwrap_err().number(), 5);
    /// # Ok(())
    /// # }
    /// ```
    pub fn insert(&mut self, table: &mut Table, row: &[u64]) -> Result<bool, Refusal> {
        let inserted = calls::insert(&mut self.words, table.header, row);
        table.header = inserted.table;
        Refusal::check(inserted.number).map(|()| inserted.is_new)
    }

    /// Inserts a row, its grades as grades, and says whether it was new.
    ///
    /// ```
    /// # fn main() -> Result<(), ducatbriar::Refusal> {
    /// use ducatbriar::{Cell, Kind, Pool};
    /// let mut pool = Pool::new();
    /// let mut grades = pool.build_with_kinds(&[Kind::Grade], 4, &[[Cell::Grade(0)]])?;
    /// assert!(pool.insert_cells(&mut grades, &[Cell::Grade(-1)])?);
    /// assert_eq!(grades.kinds(), [Kind::Grade]);
    /// # Ok(())
    /// # }
    /// ```
    ///
    /// # Panics
    ///
    /// Where a cell is not of its column's kind.
    pub fn insert_cells(&mut self, table: &mut Table, row: &[Cell]) -> Result<bool, Refusal> {
        let words = words_of(&table.kinds(), row);
        self.insert(table, &words)
    }

    /// Takes a row out, and says whether it was there. Its room is used again.
    ///
    /// ```
    /// # fn main() -> Result<(), ducatbriar::Refusal> {
    /// let mut pool = ducatbriar::Pool::new();
    /// let mut table = pool.build(2, 2, &[[1, 3], [2, 4]])?;
    /// assert!(pool.remove(&mut table, &[1, 3])?);
    /// assert!(!pool.remove(&mut table, &[1, 3])?);
    /// assert!(pool.insert(&mut table, &[1, 2])?);
    /// assert_eq!(pool.rows(&table)?.iter().collect::<Vec<_>>(), [[1, 2], [2, 4]]);
    /// # Ok(())
    /// # }
    /// ```
    pub fn remove(&mut self, table: &mut Table, row: &[u64]) -> Result<bool, Refusal> {
        let removed = calls::remove(&mut self.words, table.header, row);
        table.header = removed.table;
        Refusal::check(removed.number).map(|()| removed.was_there)
    }

    /// Takes a row out, its grades as grades, and says whether it was there.
    ///
    /// ```
    /// # fn main() -> Result<(), ducatbriar::Refusal> {
    /// use ducatbriar::{Cell, Kind, Pool};
    /// let mut pool = Pool::new();
    /// let mut grades = pool.build_with_kinds(&[Kind::Grade], 4, &[[Cell::Grade(0)], [Cell::Grade(-1)]])?;
    /// assert!(pool.remove_cells(&mut grades, &[Cell::Grade(-1)])?);
    /// assert_eq!((grades.len(), grades.kinds()), (1, vec![Kind::Grade]));
    /// # Ok(())
    /// # }
    /// ```
    ///
    /// # Panics
    ///
    /// Where a cell is not of its column's kind.
    pub fn remove_cells(&mut self, table: &mut Table, row: &[Cell]) -> Result<bool, Refusal> {
        let words = words_of(&table.kinds(), row);
        self.remove(table, &words)
    }

    /// The table's layers as text.
    ///
    /// ```
    /// # fn main() -> Result<(), ducatbriar::Refusal> {
    /// let mut pool = ducatbriar::Pool::new();
    /// let table = pool.build(2, 4, &[[2, 4], [1, 3], [1, 2]])?;
    /// let text = "LAYER 0\nData: [1, 2]\nInterval: [0]\nLAYER 1\nData: [2, 3, 4]\nInterval: [0, 2]\n";
    /// assert_eq!(pool.list(&table)?, text);
    /// # Ok(())
    /// # }
    /// ```
    pub fn list(&self, table: &Table) -> Result<String, Refusal> {
        // As if the table were at capacity: no layer has more keys than there are rows.
        let mut text = vec![0; listing(table.arity(), table.len().max(1))];
        let listed = calls::list(&self.words, table.header, &mut text);
        Refusal::check(listed.number)?;
        text.truncate(listed.len as usize);
        Ok(String::from_utf8(text).expect("a listing is plain ASCII"))
    }

    /// The table's rows, ascending.
    ///
    /// ```
    /// # fn main() -> Result<(), ducatbriar::Refusal> {
    /// let mut pool = ducatbriar::Pool::new();
    /// let table = pool.build(2, 4, &[[2, 4], [1, 3], [1, 2]])?;
    /// assert_eq!(pool.rows(&table)?.iter().collect::<Vec<_>>(), [[1, 2], [1, 3], [2, 4]]);
    /// # Ok(())
    /// # }
    /// ```
    pub fn rows(&self, table: &Table) -> Result<Rows, Refusal> {
        let columns: Vec<usize> = (0..table.arity()).collect();
        self.join(SeekStrategy::default(), &[table], &Query::new(&columns).atom(0, &columns))
    }

    /// A cursor at the table's root.
    pub fn cursor<'a>(&'a self, table: &'a Table, strategy: SeekStrategy) -> Cursor<'a> {
        Cursor { words: &self.words, header: &table.header, strategy, iter: ColumnTrieIter::new(), probes: 0 }
    }

    fn tables(tables: &[&Table]) -> Tables {
        let mut all = Tables { count: tables.len() as u64, ..Default::default() };
        all.tables.iter_mut().zip(tables).for_each(|(place, table)| *place = table.header);
        all
    }

    /// The kinds of the variables of a query that passed the checks: each binds columns of one kind.
    fn kinds(tables: &[&Table], query: &Query) -> Vec<Kind> {
        let mut kinds = vec![Kind::Plain; query.variables()];
        for (table, variables) in query.atoms() {
            variables.zip(tables[table].kinds()).for_each(|(v, kind)| kinds[v] = kind);
        }
        kinds
    }

    /// Writes the first rows of the query that fit into the window, each by variable number. Words behind them stay. The window's length is a multiple of the
    /// number of variables, or is refused with 16.
    pub fn join_into(
        &self,
        strategy: SeekStrategy,
        tables: &[&Table],
        query: &Query,
        window: &mut [u64],
    ) -> Result<Filled, Refusal> {
        let joined = calls::join(strategy, &self.words, Self::tables(tables), query.query, window);
        let full = filled(joined.number)?;
        Ok(Filled { rows: joined.rows as usize, full, seeks: joined.seeks })
    }

    /// Writes the rows of the query that fit into the window: from the first on, or of those that come strictly after a given row as read in the query's
    /// order, by variable number in the first words of eight. That row need not be an answer, and the tables may have changed since it was. The window's length
    /// is a multiple of the number of variables, or is refused with 16. [`Pool::windows`] goes on by itself.
    ///
    /// ```
    /// # fn main() -> Result<(), ducatbriar::Refusal> {
    /// use ducatbriar::{Pool, Query, SeekStrategy};
    /// let mut pool = Pool::new();
    /// let mut bands = pool.build(1, 4, &[[10], [20], [30]])?;
    /// let query = Query::new(&[0]).atom(0, &[0]);
    /// let mut window = [0; 2];
    /// let first = pool.join_after_into(SeekStrategy::Galloping, &[&bands], &query, None, &mut window)?;
    /// assert_eq!((first.rows, first.full, window), (2, true, [10, 20]));
    /// pool.remove(&mut bands, &[20])?;
    /// pool.insert(&mut bands, &[25])?;
    /// let rest = pool.join_after_into(SeekStrategy::Galloping, &[&bands], &query, Some(first.last), &mut window)?;
    /// assert_eq!((rest.rows, rest.full, window), (2, false, [25, 30]));
    /// # Ok(())
    /// # }
    /// ```
    pub fn join_after_into(
        &self,
        strategy: SeekStrategy,
        tables: &[&Table],
        query: &Query,
        after: Option<[u64; MAX_VARIABLES]>,
        window: &mut [u64],
    ) -> Result<Piece, Refusal> {
        self.join_over(strategy, tables, query).piece(after, window)
    }

    /// All rows of the query, each by variable number, ascending as read in the query's order.
    pub fn join(&self, strategy: SeekStrategy, tables: &[&Table], query: &Query) -> Result<Rows, Refusal> {
        let (join, width) = (self.join_over(strategy, tables, query), query.variables());
        let mut words = vec![0; first_window(width)];
        let mut piece = join.piece(None, &mut words)?;
        let mut count = piece.rows;
        while piece.full {
            // The rows that are there stay, and the join goes on behind them.
            words.resize(4 * words.len(), 0);
            piece = join.piece(Some(piece.last), &mut words[count * width..])?;
            count += piece.rows;
        }
        words.truncate(count * width);
        Ok(Rows { kinds: Self::kinds(tables, query), count, words })
    }

    /// The rows of the query one by one, each by variable number, ascending as read in the query's order, found a window at a time: no more of them are held than
    /// `rows`, or one.
    ///
    /// ```
    /// # fn main() -> Result<(), ducatbriar::Refusal> {
    /// use ducatbriar::{Pool, Query, SeekStrategy};
    /// let mut pool = Pool::new();
    /// let r = pool.build(2, 100, &(0..100).map(|i| [i / 10, i]).collect::<Vec<_>>())?;
    /// // R(0, 1), R(0, 2): a thousand rows, twenty at a time
    /// let query = Query::new(&[0, 1, 2]).atom(0, &[0, 1]).atom(0, &[0, 2]);
    /// let mut rows = pool.windows(SeekStrategy::Galloping, &[&r], &query, 20)?;
    /// assert_eq!(rows.next_row(), Some(&[0, 0, 0][..]));
    /// assert_eq!(rows.count(), 999);
    /// # Ok(())
    /// # }
    /// ```
    pub fn windows(&self, strategy: SeekStrategy, tables: &[&Table], query: &Query, rows: usize) -> Result<Windows<'_>, Refusal> {
        Windows::new(self.join_over(strategy, tables, query), query.variables(), rows)
    }

    fn join_over(&self, strategy: SeekStrategy, tables: &[&Table], query: &Query) -> Join<'_> {
        Join { words: &self.words, strategy, tables: Self::tables(tables), query: query.query }
    }

    /// The same rows, or the same refusal, by the plain engine: for someone who examines the other one (docs/EXAMINER.md). Slower by design.
    ///
    /// ```
    /// # fn main() -> Result<(), ducatbriar::Refusal> {
    /// use ducatbriar::{Pool, Query, SeekStrategy};
    /// let mut pool = Pool::new();
    /// let r = pool.build(2, 4, &[[1, 2], [1, 3], [2, 3]])?;
    /// // R(0, 1), R(1, 2)
    /// let query = Query::new(&[0, 1, 2]).atom(0, &[0, 1]).atom(0, &[1, 2]);
    /// let rows = pool.plain_join(&[&r], &query)?;
    /// assert_eq!(rows.iter().collect::<Vec<_>>(), [[1, 2, 3]]);
    /// assert_eq!(rows, pool.join(SeekStrategy::Galloping, &[&r], &query)?);
    /// # Ok(())
    /// # }
    /// ```
    pub fn plain_join(&self, tables: &[&Table], query: &Query) -> Result<Rows, Refusal> {
        let width = query.variables();
        let mut words = vec![0; first_window(width)];
        loop {
            // It can't go on behind a row, so a window that is too small is made larger until it holds all.
            let joined = calls::plain_join(&self.words, Self::tables(tables), query.query, &mut words);
            let count = joined.rows as usize;
            if !filled(joined.number)? {
                words.truncate(count * width);
                return Ok(Rows { kinds: Self::kinds(tables, query), count, words });
            }
            words.resize(4 * words.len(), 0);
        }
    }

    /// Checks a listing that some unit gave for this query over these tables (docs/DISPUTES.md): each row by variable number. It uses no leapfrog. A row that
    /// doesn't have a word for each variable makes a listing that is not whole rows.
    ///
    /// ```
    /// # fn main() -> Result<(), ducatbriar::Refusal> {
    /// use ducatbriar::{Pool, Query, Verdict};
    /// let mut pool = Pool::new();
    /// let road = pool.build(2, 4, &[[7, 10], [7, 11], [9, 12]])?;
    /// let query = Query::new(&[0, 1]).atom(0, &[0, 1]);
    /// let check = |listing: &[[u64; 2]]| pool.check_listing(&[&road], &query, listing);
    /// assert_eq!(check(&[[7, 10], [7, 11], [9, 12]])?, Verdict::Accepted);
    /// assert_eq!(check(&[[7, 10], [7, 12], [9, 12]])?, Verdict::Wrong(1));
    /// assert_eq!(check(&[[7, 10], [9, 12]])?, Verdict::Missing(vec![7, 11]));
    /// # Ok(())
    /// # }
    /// ```
    pub fn check_listing<R: AsRef<[u64]>>(&self, tables: &[&Table], query: &Query, listing: &[R]) -> Result<Verdict, Refusal> {
        let whole = listing.iter().all(|row| row.as_ref().len() == query.variables());
        let words: Vec<u64> = listing.iter().flat_map(|row| row.as_ref()).copied().collect();
        let checked = calls::check_listing(&self.words, Self::tables(tables), query.query, &words, listing.len() as u64);
        // Rows of other lengths could make up whole rows between them; what the join looks for before 16 comes first all the same.
        let number = if whole || [8, 9, 10, 11, 15].contains(&checked.number) { checked.number } else { 16 };
        Refusal::check(number)?;
        Ok(match checked.verdict {
            1 => Verdict::Accepted,
            2 => Verdict::Wrong(checked.row as usize),
            _ => Verdict::Missing(checked.missing[..query.variables()].to_vec()),
        })
    }
}

/// The words of a first window for rows so wide: whole rows, and so are four times as many.
fn first_window(width: usize) -> usize {
    256 * width.min(MAX_VARIABLES)
}

/// A cursor over a table: a trie iterator. The table can't change while one looks at it.
///
/// ```
/// # fn main() -> Result<(), ducatbriar::Refusal> {
/// let mut pool = ducatbriar::Pool::new();
/// let table = pool.build(2, 4, &[[10, 1], [10, 2], [20, 3]])?;
/// let mut cursor = pool.cursor(&table, ducatbriar::SeekStrategy::Galloping);
/// assert!(cursor.open()?);
/// assert!(cursor.seek(11)?);
/// assert_eq!(cursor.probes(), 2);
/// assert_eq!(cursor.key()?, Some(20));
/// assert!(cursor.open()?);
/// assert!(cursor.find(3)?);
/// assert_eq!(cursor.key()?, Some(3));
/// assert_eq!(cursor.next_key()?, None);
/// assert!(cursor.up()?);
/// assert_eq!(cursor.key()?, Some(20));
/// # Ok(())
/// # }
/// ```
#[derive(Clone, Debug)]
pub struct Cursor<'a> {
    words: &'a [u64],
    header: &'a ColumnTrie,
    strategy: SeekStrategy,
    iter: ColumnTrieIter,
    probes: u64,
}

impl Cursor<'_> {
    /// 0 at the root.
    pub fn depth(&self) -> usize {
        self.iter.depth as usize
    }

    /// How many keys its seeks have looked at so far.
    pub fn probes(&self) -> u64 {
        self.probes
    }

    /// The key it stands on, if there is one.
    pub fn key(&self) -> Result<Option<u64>, Refusal> {
        let answer = self.iter.key(self.words, *self.header);
        Refusal::check(answer.number).map(|()| answer.found.then_some(answer.key))
    }

    /// To the key behind, which it gives.
    pub fn next_key(&mut self) -> Result<Option<u64>, Refusal> {
        let answer = self.iter.next(self.words, *self.header);
        self.iter = answer.iter;
        Refusal::check(answer.number).map(|()| answer.found.then_some(answer.key))
    }

    /// To the first key not yet passed that is not below the target; whether there is one.
    pub fn seek(&mut self, target: u64) -> Result<bool, Refusal> {
        self.sought(target).map(|answer| answer.found)
    }

    /// As [`Cursor::seek`]; whether the key it stands on then is the target.
    pub fn find(&mut self, target: u64) -> Result<bool, Refusal> {
        self.sought(target).map(|answer| answer.hit)
    }

    fn sought(&mut self, target: u64) -> Result<SeekAnswer, Refusal> {
        let answer = self.iter.seek(self.words, *self.header, self.strategy, target);
        self.iter = answer.iter;
        self.probes += answer.probes;
        Refusal::check(answer.number).map(|()| answer)
    }

    /// Whether no key is left at this depth; yes at the root.
    pub fn at_end(&self) -> Result<bool, Refusal> {
        let answer = self.iter.at_end(self.words, *self.header);
        Refusal::check(answer.number).map(|()| answer.at_end)
    }

    /// To the first key below the one it stands on; whether there is one.
    pub fn open(&mut self) -> Result<bool, Refusal> {
        let answer = self.iter.open(self.words, *self.header);
        self.iter = answer.iter;
        Refusal::check(answer.number).map(|()| answer.opened)
    }

    /// Back to the key that was opened; no at the root.
    pub fn up(&mut self) -> Result<bool, Refusal> {
        let answer = self.iter.up(self.words, *self.header);
        self.iter = answer.iter;
        Refusal::check(answer.number).map(|()| answer.risen)
    }
}
