//! The limits and the sizes that follow from them, by the names that include/ducatbriar.h gives them. The numbers are the header's: they are read from its text
//! when this is compiled.

/// Columns of a table.
pub const MAX_ARITY: usize = defined("MAX_ARITY");
/// Rows of a table.
pub const MAX_CAPACITY: usize = defined("MAX_CAPACITY");
/// Tables of a join.
pub const MAX_TABLES: usize = defined("MAX_TABLES");
/// Atoms of a query.
pub const MAX_ATOMS: usize = defined("MAX_ATOMS");
/// Variables of a query.
pub const MAX_VARIABLES: usize = defined("MAX_VARIABLES");

const HEADER: &[u8] = include_bytes!("../../../include/ducatbriar.h");

/// The number behind `#define DUCATBRIAR_NAME` in the header.
const fn defined(name: &str) -> usize {
    let mut line = 0;
    while line < HEADER.len() {
        let prefixed = behind(line, b"#define DUCATBRIAR_");
        let named = behind(prefixed, name.as_bytes());
        let number = behind(named, b" ");
        if number < HEADER.len() {
            return decimal(number);
        }
        line = next_line(line);
    }
    panic!("the header lacks a limit")
}

/// The place behind `text` where it stands at place `at`, else the header's end.
const fn behind(at: usize, text: &[u8]) -> usize {
    let mut i = 0;
    while i < text.len() {
        if at + i >= HEADER.len() || HEADER[at + i] != text[i] {
            return HEADER.len();
        }
        i += 1;
    }
    at + text.len()
}

const fn next_line(mut at: usize) -> usize {
    while at < HEADER.len() && HEADER[at] != b'\n' {
        at += 1;
    }
    at + 1
}

const fn decimal(mut at: usize) -> usize {
    let mut number = 0;
    while HEADER[at].is_ascii_digit() {
        number = 10 * number + (HEADER[at] - b'0') as usize;
        at += 1;
    }
    number
}

/// How many words of the pool a table takes.
pub const fn words(arity: usize, capacity: usize) -> usize {
    2 * arity * capacity
}

/// How many bytes the listing of a table takes at most, for an arity and a capacity inside the limits: a table reaches it whose rows all start with different
/// keys and whose keys all have 20 digits.
///
/// ```
/// # fn main() -> Result<(), ducatbriar::Refusal> {
/// let mut pool = ducatbriar::Pool::new();
/// let table = pool.build(1, 1, &[[u64::MAX]])?;
/// assert_eq!(pool.list(&table)?.len(), ducatbriar::limits::listing(1, 1));
/// # Ok(())
/// # }
/// ```
pub const fn listing(arity: usize, capacity: usize) -> usize {
    // Of each layer the 30 bytes around its lists and its keys, 2 bytes between any two; then layer 0's interval 0, and the intervals of the others.
    arity * (28 + 22 * capacity) + 1 + (arity - 1) * (digits(capacity) + 2 * capacity - 2)
}

/// How many bytes the file of a table takes at most, for an arity and a capacity inside the limits: a table at capacity reaches it that has a grade among its
/// columns.
///
/// ```
/// # fn main() -> Result<(), ducatbriar::Refusal> {
/// use ducatbriar::{limits, Cell, Kind, Pool};
/// let mut pool = Pool::new();
/// let table = pool.build_with_kinds(&[Kind::Grade], 1, &[[Cell::Grade(-60)]])?;
/// assert_eq!(table.to_bytes(&pool)?.len(), limits::file(1, 1));
/// # Ok(())
/// # }
/// ```
pub const fn file(arity: usize, capacity: usize) -> usize {
    // 4 for the arity, 3 and one a column for the kinds, the rows' words, 3 before each field of rows, and 3 at the end.
    arity + 10 + 8 * arity * capacity + 3 * capacity.div_ceil(field_rows(arity))
}

/// How many rows a field of a file holds at most: as many whole ones as fit in 65,535 bytes.
pub const fn field_rows(arity: usize) -> usize {
    65_535 / (8 * arity)
}

/// How many digits the numbers from 0 to capacity - 1 have together: each has one, and one more from each power of ten up.
const fn digits(capacity: usize) -> usize {
    capacity
        + capacity.saturating_sub(10)
        + capacity.saturating_sub(100)
        + capacity.saturating_sub(1_000)
        + capacity.saturating_sub(10_000)
}
