//! The calls, one function each, over words that the caller keeps.
//!
//! Each takes whatever words, counts, headers and cursors it is handed, never panics, and answers with a number: 0, or that of a [`Refusal`](crate::Refusal).
//! Names and layouts are those of include/ducatbriar.h, which says what each call leaves as it was. Every number crosses as 64 bits.
use crate::limits::{MAX_ARITY, MAX_ATOMS, MAX_TABLES, MAX_VARIABLES};

/// How a run is probed: key by key from the front, by halves, or at doubling distances and then by halves.
#[derive(Clone, Copy, Debug, Default, PartialEq, Eq, Hash)]
#[repr(u64)]
pub enum SeekStrategy {
    Linear = 0,
    Binary = 1,
    #[default]
    Galloping = 2,
}

impl SeekStrategy {
    pub const ALL: [SeekStrategy; 3] = [SeekStrategy::Linear, SeekStrategy::Binary, SeekStrategy::Galloping];
}

/// Declares a struct as C lays it out, with equality of its fields.
macro_rules! c_struct {
    ($(#[$doc:meta])* $name:ident { $($field:ident: $type:ty),+ $(,)? }) => {
        $(#[$doc])*
        #[derive(Clone, Copy, Debug, Default, PartialEq, Eq)]
        #[repr(C)]
        pub struct $name { $(pub $field: $type),+ }
    };
}

c_struct!(
    /// Where a seek ended, how many keys it looked at, and whether it hit: the offset is inside the run and the key there is the target.
    Sought { offset: u64, probes: u64, hit: bool }
);
c_struct!(
    /// A table's header: where its words start in the pool, its limits, the lengths of each layer's two lists, the number of distinct rows, and each
    /// column's kind: yes for a grade.
    ColumnTrie {
        start: u64,
        arity: u64,
        capacity: u64,
        data_len: [u64; MAX_ARITY],
        interval_len: [u64; MAX_ARITY],
        tuple_count: u64,
        grade: [bool; MAX_ARITY],
    }
);
c_struct!(
    /// The kinds of a table's columns: yes for a grade. By default all are plain.
    Kinds { grade: [bool; MAX_ARITY] }
);
c_struct!(
    /// A table's columns in another sequence: number i names the old column that becomes column i; those past the arity are not looked at.
    Columns { columns: [u64; MAX_ARITY] }
);
c_struct!(Built { number: u64, table: ColumnTrie });
c_struct!(Inserted { number: u64, is_new: bool, table: ColumnTrie });
c_struct!(Removed { number: u64, was_there: bool, table: ColumnTrie });
c_struct!(Listed { number: u64, len: u64 });
c_struct!(FileWritten { number: u64, len: u64 });
c_struct!(
    /// A cursor: its depth, whose children it looks at, and how many of them it has passed.
    ColumnTrieIter { depth: u64, interval_i: u64, slice_offset: u64 }
);
c_struct!(KeyAnswer { number: u64, found: bool, key: u64 });
c_struct!(NextAnswer { number: u64, found: bool, key: u64, iter: ColumnTrieIter });
c_struct!(SeekAnswer { number: u64, found: bool, hit: bool, probes: u64, iter: ColumnTrieIter });
c_struct!(EndAnswer { number: u64, at_end: bool });
c_struct!(OpenAnswer { number: u64, opened: bool, iter: ColumnTrieIter });
c_struct!(UpAnswer { number: u64, risen: bool, iter: ColumnTrieIter });
c_struct!(
    /// Where a run of sibling keys lies: `len` words from place `from` of the school's pool, or of the maker's.
    LookedUp { number: u64, from_school: bool, from: u64, len: u64 }
);
c_struct!(
    /// A cursor over a table laid over another: one on each.
    LaidIter { school: ColumnTrieIter, maker: ColumnTrieIter }
);
c_struct!(LaidNextAnswer { number: u64, found: bool, key: u64, iter: LaidIter });
c_struct!(LaidSeekAnswer { number: u64, found: bool, hit: bool, probes: u64, iter: LaidIter });
c_struct!(LaidOpenAnswer { number: u64, opened: bool, iter: LaidIter });
c_struct!(LaidUpAnswer { number: u64, risen: bool, iter: LaidIter });
c_struct!(
    /// The number of the table that an atom reads, and its list, `len` variables long. Where it is laid over, the table is the school's, and `maker` the
    /// number of the maker's; else `maker` is not looked at.
    Atom { table: u64, len: u64, variables: [u64; MAX_ARITY], laid_over: bool, maker: u64 }
);
c_struct!(
    /// The order, `n` variables long, and `atom_count` atoms.
    Query { n: u64, order: [u64; MAX_VARIABLES], atom_count: u64, atoms: [Atom; MAX_ATOMS] }
);
c_struct!(
    /// `count` headers.
    Tables { count: u64, tables: [ColumnTrie; MAX_TABLES] }
);
c_struct!(
    /// The rows written, and the seeks that the leapfrogs made: 2^64 - 1 stands for that and all above; on 12 those up to the first row that does not fit.
    Joined { number: u64, rows: u64, seeks: u64 }
);
c_struct!(
    /// The rows written by the plain engine.
    PlainJoined { number: u64, rows: u64 }
);
c_struct!(
    /// The rows written, and the last of them by variable number, or the given row if none was; words past n are 0. All of it is 0 at a start without rows and
    /// in refusals but 12.
    JoinedAfter { number: u64, rows: u64, last: [u64; MAX_VARIABLES] }
);
c_struct!(
    /// The verdict on a listing: 0 nothing was checked, 1 accepted, 2 wrong at `row`, 3 `missing` is the least row missing. `row` is 0 unless the verdict is 2, and
    /// `missing` zeros unless it is 3; its words past the variables are zero.
    Checked { number: u64, verdict: u64, row: u64, missing: [u64; MAX_VARIABLES] }
);

mod c {
    use super::*;
    c_struct!(
        /// A row by value: C passes no array so.
        Row { words: [u64; MAX_VARIABLES] }
    );
    unsafe extern "C" {
        pub fn ducatbriar_partition_point(strategy: u64, remaining: *const u64, len: u64, target: u64) -> Sought;
        pub fn ducatbriar_word_of(grade: i64) -> u64;
        pub fn ducatbriar_grade_of(word: u64) -> i64;
        pub fn ducatbriar_empty(start: u64, arity: u64, capacity: u64) -> ColumnTrie;
        pub fn ducatbriar_undamaged(pool: *const u64, len: u64, table: ColumnTrie) -> bool;
        pub fn ducatbriar_build(
            rows: *mut u64,
            rows_len: u64,
            pool: *mut u64,
            pool_len: u64,
            start: u64,
            arity: u64,
            capacity: u64,
            kinds: Kinds,
        ) -> Built;
        pub fn ducatbriar_permute(
            pool: *const u64,
            pool_len: u64,
            table: ColumnTrie,
            columns: Columns,
            into: *mut u64,
            into_len: u64,
            start: u64,
            capacity: u64,
        ) -> Built;
        pub fn ducatbriar_insert(pool: *mut u64, len: u64, table: ColumnTrie, tuple: *const u64, tuple_len: u64) -> Inserted;
        pub fn ducatbriar_remove(pool: *mut u64, len: u64, table: ColumnTrie, tuple: *const u64, tuple_len: u64) -> Removed;
        pub fn ducatbriar_list(pool: *const u64, len: u64, table: ColumnTrie, text: *mut u8, text_len: u64) -> Listed;
        pub fn ducatbriar_write(pool: *const u64, len: u64, table: ColumnTrie, bytes: *mut u8, bytes_len: u64) -> FileWritten;
        pub fn ducatbriar_read(
            bytes: *const u8,
            bytes_len: u64,
            pool: *mut u64,
            pool_len: u64,
            start: u64,
            capacity: u64,
        ) -> Built;
        pub fn ducatbriar_key(pool: *const u64, len: u64, table: ColumnTrie, iter: ColumnTrieIter) -> KeyAnswer;
        pub fn ducatbriar_next(pool: *const u64, len: u64, table: ColumnTrie, iter: ColumnTrieIter) -> NextAnswer;
        pub fn ducatbriar_seek(
            pool: *const u64,
            len: u64,
            table: ColumnTrie,
            iter: ColumnTrieIter,
            strategy: u64,
            target: u64,
        ) -> SeekAnswer;
        pub fn ducatbriar_at_end(pool: *const u64, len: u64, table: ColumnTrie, iter: ColumnTrieIter) -> EndAnswer;
        pub fn ducatbriar_open(pool: *const u64, len: u64, table: ColumnTrie, iter: ColumnTrieIter) -> OpenAnswer;
        pub fn ducatbriar_up(pool: *const u64, len: u64, table: ColumnTrie, iter: ColumnTrieIter) -> UpAnswer;
        pub fn ducatbriar_lookup(
            school_pool: *const u64,
            school_len: u64,
            school: ColumnTrie,
            maker_pool: *const u64,
            maker_len: u64,
            maker: ColumnTrie,
            key: u64,
        ) -> LookedUp;
        pub fn ducatbriar_laid_key(
            school_pool: *const u64,
            school_len: u64,
            school: ColumnTrie,
            maker_pool: *const u64,
            maker_len: u64,
            maker: ColumnTrie,
            iter: LaidIter,
        ) -> KeyAnswer;
        pub fn ducatbriar_laid_next(
            school_pool: *const u64,
            school_len: u64,
            school: ColumnTrie,
            maker_pool: *const u64,
            maker_len: u64,
            maker: ColumnTrie,
            iter: LaidIter,
        ) -> LaidNextAnswer;
        pub fn ducatbriar_laid_seek(
            school_pool: *const u64,
            school_len: u64,
            school: ColumnTrie,
            maker_pool: *const u64,
            maker_len: u64,
            maker: ColumnTrie,
            iter: LaidIter,
            strategy: u64,
            target: u64,
        ) -> LaidSeekAnswer;
        pub fn ducatbriar_laid_at_end(
            school_pool: *const u64,
            school_len: u64,
            school: ColumnTrie,
            maker_pool: *const u64,
            maker_len: u64,
            maker: ColumnTrie,
            iter: LaidIter,
        ) -> EndAnswer;
        pub fn ducatbriar_laid_open(
            school_pool: *const u64,
            school_len: u64,
            school: ColumnTrie,
            maker_pool: *const u64,
            maker_len: u64,
            maker: ColumnTrie,
            iter: LaidIter,
        ) -> LaidOpenAnswer;
        pub fn ducatbriar_laid_up(
            school_pool: *const u64,
            school_len: u64,
            school: ColumnTrie,
            maker_pool: *const u64,
            maker_len: u64,
            maker: ColumnTrie,
            iter: LaidIter,
        ) -> LaidUpAnswer;
        pub fn ducatbriar_join(
            strategy: u64,
            pool: *const u64,
            len: u64,
            tables: Tables,
            query: Query,
            window: *mut u64,
            window_len: u64,
        ) -> Joined;
        pub fn ducatbriar_plain_join(
            pool: *const u64,
            len: u64,
            tables: Tables,
            query: Query,
            window: *mut u64,
            window_len: u64,
        ) -> PlainJoined;
        pub fn ducatbriar_join_after(
            strategy: u64,
            pool: *const u64,
            len: u64,
            tables: Tables,
            query: Query,
            goes_on: bool,
            after: Row,
            window: *mut u64,
            window_len: u64,
        ) -> JoinedAfter;
        pub fn ducatbriar_check_listing(
            pool: *const u64,
            len: u64,
            tables: Tables,
            query: Query,
            listing: *const u64,
            listing_len: u64,
            count: u64,
        ) -> Checked;
    }
}

// Each call below is safe: it is proved to stay inside the slices it is handed whatever the other arguments are, and a Rust slice has the length it says.
// No call keeps a pointer.

/// The offset in `remaining` at which `strategy` ends for `target`, its probes, and whether the key there is the target.
///
/// ```
/// use ducatbriar::calls::{partition_point, SeekStrategy, Sought};
/// let run = [2, 4, 6, 8, 10, 12, 14, 16];
/// assert_eq!(partition_point(SeekStrategy::Galloping, &run, 7), Sought { offset: 3, probes: 5, hit: false });
/// ```
pub fn partition_point(strategy: SeekStrategy, remaining: &[u64], target: u64) -> Sought {
    unsafe { c::ducatbriar_partition_point(strategy as u64, remaining.as_ptr(), remaining.len() as u64, target) }
}

/// The word of a grade, a signed whole number of thousandths: the grade plus 2^63, so that words ascend as grades do.
///
/// ```
/// assert_eq!(ducatbriar::word_of(0), 9_223_372_036_854_775_808);
/// assert!(ducatbriar::word_of(-1) < ducatbriar::word_of(0));
/// assert_eq!(ducatbriar::grade_of(ducatbriar::word_of(-1)), -1);
/// ```
pub fn word_of(grade: i64) -> u64 {
    unsafe { c::ducatbriar_word_of(grade) }
}

/// The grade of a word.
pub fn grade_of(word: u64) -> i64 {
    unsafe { c::ducatbriar_grade_of(word) }
}

/// The header of a table without rows, with plain columns.
pub fn empty(start: u64, arity: u64, capacity: u64) -> ColumnTrie {
    unsafe { c::ducatbriar_empty(start, arity, capacity) }
}

/// Whether the table is undamaged.
pub fn undamaged(pool: &[u64], table: ColumnTrie) -> bool {
    unsafe { c::ducatbriar_undamaged(pool.as_ptr(), pool.len() as u64, table) }
}

/// Sorts the rows in place and leaves at `start` of the pool a table with each distinct row once, whose columns are of these kinds; those past the arity
/// are stored as plain. Refusals 1 to 5.
pub fn build(rows: &mut [u64], pool: &mut [u64], start: u64, arity: u64, capacity: u64, kinds: Kinds) -> Built {
    let (rows_len, pool_len) = (rows.len() as u64, pool.len() as u64);
    unsafe { c::ducatbriar_build(rows.as_mut_ptr(), rows_len, pool.as_mut_ptr(), pool_len, start, arity, capacity, kinds) }
}

/// Leaves at `start` of a second pool the table with its columns permuted: what a build of the rows so permuted leaves, kinds going along. Refusals 6, 8, 2, 3, 5.
///
/// ```
/// use ducatbriar::calls::{build, permute, Columns, Kinds};
/// let (mut pool, mut into) = ([0; 8], [0; 8]);
/// let table = build(&mut [1, 5, 2, 4], &mut pool, 0, 2, 2, Kinds::default()).table;
/// let columns = Columns { columns: [1, 0, 0, 0, 0, 0, 0, 0] };
/// let permuted = permute(&pool, table, columns, &mut into, 0, 2);
/// assert_eq!((permuted.number, permuted.table.tuple_count), (0, 2));
/// // The rows are (4, 2) and (5, 1). The second layer has a group for each of 4 and 5.
/// assert_eq!(into, [4, 5, 0, 0, 2, 1, 0, 1]);
/// ```
pub fn permute(pool: &[u64], table: ColumnTrie, columns: Columns, into: &mut [u64], start: u64, capacity: u64) -> Built {
    let (pool_len, into_len) = (pool.len() as u64, into.len() as u64);
    unsafe { c::ducatbriar_permute(pool.as_ptr(), pool_len, table, columns, into.as_mut_ptr(), into_len, start, capacity) }
}

/// Inserts the tuple; the kinds stay. Refusals 6, 4, 5.
pub fn insert(pool: &mut [u64], table: ColumnTrie, tuple: &[u64]) -> Inserted {
    unsafe { c::ducatbriar_insert(pool.as_mut_ptr(), pool.len() as u64, table, tuple.as_ptr(), tuple.len() as u64) }
}

/// Takes the tuple out; the kinds stay, and so do the words past the new lengths. Refusals 6, 4.
///
/// ```
/// use ducatbriar::calls::{build, remove, Kinds};
/// let mut pool = [0; 4];
/// let table = build(&mut [5, 3], &mut pool, 0, 1, 2, Kinds::default()).table;
/// let removed = remove(&mut pool, table, &[3]);
/// assert_eq!((removed.number, removed.was_there, removed.table.tuple_count), (0, true, 1));
/// // Layer 0 is the key 5 and the interval 0. Past their lengths the words are as they were.
/// assert_eq!(pool, [5, 5, 0, 0]);
/// assert!(!remove(&mut pool, removed.table, &[3]).was_there);
/// ```
pub fn remove(pool: &mut [u64], table: ColumnTrie, tuple: &[u64]) -> Removed {
    unsafe { c::ducatbriar_remove(pool.as_mut_ptr(), pool.len() as u64, table, tuple.as_ptr(), tuple.len() as u64) }
}

/// Writes the table's listing at the front of the text. Refusals 6, 14.
pub fn list(pool: &[u64], table: ColumnTrie, text: &mut [u8]) -> Listed {
    unsafe { c::ducatbriar_list(pool.as_ptr(), pool.len() as u64, table, text.as_mut_ptr(), text.len() as u64) }
}

/// Writes the table's file (docs/FILES.md) at the front of the bytes; those behind it stay. Refusals 6, 14.
pub fn write(pool: &[u64], table: ColumnTrie, bytes: &mut [u8]) -> FileWritten {
    unsafe { c::ducatbriar_write(pool.as_ptr(), pool.len() as u64, table, bytes.as_mut_ptr(), bytes.len() as u64) }
}

/// Reads a file into a table at `start` of the pool, with the file's arity and kinds. Refusals 13, 2, 3, 5.
pub fn read(bytes: &[u8], pool: &mut [u64], start: u64, capacity: u64) -> Built {
    let (bytes_len, pool_len) = (bytes.len() as u64, pool.len() as u64);
    unsafe { c::ducatbriar_read(bytes.as_ptr(), bytes_len, pool.as_mut_ptr(), pool_len, start, capacity) }
}

/// A table and the pool that its words lie in, as a table laid over another is handed over.
#[derive(Clone, Copy, Debug)]
pub struct Lent<'a> {
    pub pool: &'a [u64],
    pub table: ColumnTrie,
}

/// Calls with the pools and headers of a school's table and a maker's.
macro_rules! laid {
    ($call:ident, $school:expr, $maker:expr, $($more:expr),+) => {
        unsafe {
            c::$call(
                $school.pool.as_ptr(),
                $school.pool.len() as u64,
                $school.table,
                $maker.pool.as_ptr(),
                $maker.pool.len() as u64,
                $maker.table,
                $($more),+
            )
        }
    };
}

/// Where the sibling keys under a first key lie: in the school's pool if the school has the key, else in the maker's. Refusals 6, 17, 1.
pub fn lookup(school: Lent, maker: Lent, key: u64) -> LookedUp {
    laid!(ducatbriar_lookup, school, maker, key)
}

impl LookedUp {
    /// The run itself, of an answer for these pools.
    ///
    /// # Panics
    ///
    /// Where it does not lie in the pool.
    pub fn run<'a>(&self, school_pool: &'a [u64], maker_pool: &'a [u64]) -> &'a [u64] {
        let pool = if self.from_school { school_pool } else { maker_pool };
        &pool[self.from as usize..][..self.len as usize]
    }
}

/// The rows of the query, written into the window by variable number. Refusals 8, 9, 10, 11, 15, 16, 6, 17, 12.
pub fn join(strategy: SeekStrategy, pool: &[u64], tables: Tables, query: Query, window: &mut [u64]) -> Joined {
    unsafe {
        c::ducatbriar_join(
            strategy as u64,
            pool.as_ptr(),
            pool.len() as u64,
            tables,
            query,
            window.as_mut_ptr(),
            window.len() as u64,
        )
    }
}

/// The same by the plain engine, which has no strategy and no seeks: number, rows and window words are those of [`join`] on every input. Slower by design.
pub fn plain_join(pool: &[u64], tables: Tables, query: Query, window: &mut [u64]) -> PlainJoined {
    unsafe { c::ducatbriar_plain_join(pool.as_ptr(), pool.len() as u64, tables, query, window.as_mut_ptr(), window.len() as u64) }
}

/// The rows of [`join`] a window at a time: all of them at a start, else those that come strictly after the row `after` as read in the order, whether or not
/// it is an answer; its first n words count. Refusals 8, 9, 10, 11, 15, 16, 6, 17, and 12 where more rows remain than fit: then the next call goes on
/// after [`last`](JoinedAfter::last).
///
/// ```
/// use ducatbriar::calls::{build, join_after, Atom, Kinds, Query, SeekStrategy, Tables};
/// let mut pool = [0; 6];
/// let table = build(&mut [30, 10, 20], &mut pool, 0, 1, 3, Kinds::default()).table;
/// let mut tables = Tables { count: 1, ..Default::default() };
/// tables.tables[0] = table;
/// let mut query = Query { n: 1, atom_count: 1, ..Default::default() };
/// query.atoms[0] = Atom { len: 1, ..Default::default() };
/// let mut window = [0; 2];
/// let first = join_after(SeekStrategy::Galloping, &pool, tables, query, false, [0; 8], &mut window);
/// assert_eq!((first.number, window, first.last[0]), (12, [10, 20], 20));
/// let rest = join_after(SeekStrategy::Galloping, &pool, tables, query, true, first.last, &mut window);
/// assert_eq!((rest.number, rest.rows, window[0], rest.last[0]), (0, 1, 30, 30));
/// ```
pub fn join_after(
    strategy: SeekStrategy,
    pool: &[u64],
    tables: Tables,
    query: Query,
    goes_on: bool,
    after: [u64; MAX_VARIABLES],
    window: &mut [u64],
) -> JoinedAfter {
    let (row, len) = (c::Row { words: after }, window.len() as u64);
    unsafe {
        c::ducatbriar_join_after(
            strategy as u64,
            pool.as_ptr(),
            pool.len() as u64,
            tables,
            query,
            goes_on,
            row,
            window.as_mut_ptr(),
            len,
        )
    }
}

/// Whether the words are the query's complete listing, and where not. The count of rows is read for a query without variables alone, whose rows have no words.
/// Refusals 8, 9, 10, 11, 15, 16, 6, 17.
pub fn check_listing(pool: &[u64], tables: Tables, query: Query, listing: &[u64], count: u64) -> Checked {
    let listing_len = listing.len() as u64;
    unsafe { c::ducatbriar_check_listing(pool.as_ptr(), pool.len() as u64, tables, query, listing.as_ptr(), listing_len, count) }
}

/// The cursor's calls. Refusals 6 and 7.
impl ColumnTrieIter {
    /// At the root.
    pub fn new() -> Self {
        Self::default()
    }

    /// The key at the cursor, if it stands on one.
    pub fn key(self, pool: &[u64], table: ColumnTrie) -> KeyAnswer {
        unsafe { c::ducatbriar_key(pool.as_ptr(), pool.len() as u64, table, self) }
    }

    /// To the key behind, which it gives.
    pub fn next(self, pool: &[u64], table: ColumnTrie) -> NextAnswer {
        unsafe { c::ducatbriar_next(pool.as_ptr(), pool.len() as u64, table, self) }
    }

    /// To the first sibling not yet passed that is not below the target.
    pub fn seek(self, pool: &[u64], table: ColumnTrie, strategy: SeekStrategy, target: u64) -> SeekAnswer {
        unsafe { c::ducatbriar_seek(pool.as_ptr(), pool.len() as u64, table, self, strategy as u64, target) }
    }

    /// Whether no sibling is left.
    pub fn at_end(self, pool: &[u64], table: ColumnTrie) -> EndAnswer {
        unsafe { c::ducatbriar_at_end(pool.as_ptr(), pool.len() as u64, table, self) }
    }

    /// To the first of the present key's children, or of the root's.
    pub fn open(self, pool: &[u64], table: ColumnTrie) -> OpenAnswer {
        unsafe { c::ducatbriar_open(pool.as_ptr(), pool.len() as u64, table, self) }
    }

    /// Back to the key that was opened.
    pub fn up(self, pool: &[u64], table: ColumnTrie) -> UpAnswer {
        unsafe { c::ducatbriar_up(pool.as_ptr(), pool.len() as u64, table, self) }
    }
}

/// The cursor's calls over a school's table laid over a maker's. Refusals 6 in either, 17 and 7.
impl LaidIter {
    /// At the root.
    pub fn new() -> Self {
        Self::default()
    }

    /// The key at the cursor, if it stands on one.
    pub fn key(self, school: Lent, maker: Lent) -> KeyAnswer {
        laid!(ducatbriar_laid_key, school, maker, self)
    }

    /// To the key behind, which it gives.
    pub fn next(self, school: Lent, maker: Lent) -> LaidNextAnswer {
        laid!(ducatbriar_laid_next, school, maker, self)
    }

    /// To the first sibling not yet passed that is not below the target; the probes of both are added up.
    pub fn seek(self, school: Lent, maker: Lent, strategy: SeekStrategy, target: u64) -> LaidSeekAnswer {
        laid!(ducatbriar_laid_seek, school, maker, self, strategy as u64, target)
    }

    /// Whether no sibling is left.
    pub fn at_end(self, school: Lent, maker: Lent) -> EndAnswer {
        laid!(ducatbriar_laid_at_end, school, maker, self)
    }

    /// To the first of the present key's children, or of the root's.
    pub fn open(self, school: Lent, maker: Lent) -> LaidOpenAnswer {
        laid!(ducatbriar_laid_open, school, maker, self)
    }

    /// Back to the key that was opened.
    pub fn up(self, school: Lent, maker: Lent) -> LaidUpAnswer {
        laid!(ducatbriar_laid_up, school, maker, self)
    }
}
