//! A column trie and the leapfrog triejoin over it, with 64-bit keys on every machine.
//!
//! The work is done by Ducatbriar's proved calls, which this crate links as a static library. [`Pool`] and [`Table`] are what most callers want: a pool
//! owns the words of its tables and lends them to cursors and joins, and a table goes to another machine as a file ([`Table::to_bytes`], [`Pool::read`]).
//! A table is rebuilt with its columns in another sequence for a query in another order ([`Pool::permute`], [`Pool::follow_order`]).
//! What some unit gave for a query is checked by [`Pool::check_listing`].
//! A school's table can be laid over a maker's: [`Query::laid_over`], and [`Laid`] for lookups and cursors. A join with more rows than one wants to hold is
//! read a window at a time: [`Pool::windows`]. [`calls`] has the calls themselves, one function each, for callers who keep their own words.
//!
//! ```
//! use ducatbriar::{Pool, Query, SeekStrategy};
//!
//! # fn main() -> Result<(), ducatbriar::Refusal> {
//! let mut pool = Pool::new();
//! let mut r = pool.build(2, 16, &[[1, 2], [1, 3]])?;
//! let s = pool.build(2, 16, &[[2, 3], [3, 1]])?;
//! let t = pool.build(2, 16, &[[1, 1], [1, 3], [2, 1]])?;
//! assert!(pool.insert(&mut r, &[2, 3])?);
//!
//! // R(0, 1), S(1, 2), T(0, 2)
//! let query = Query::new(&[0, 1, 2]).atom(0, &[0, 1]).atom(1, &[1, 2]).atom(2, &[0, 2]);
//! let rows = pool.join(SeekStrategy::Galloping, &[&r, &s, &t], &query)?;
//! assert_eq!(rows.iter().collect::<Vec<_>>(), [[1, 2, 3], [1, 3, 1], [2, 3, 1]]);
//! for row in &rows {
//!     println!("{row:?}");
//! }
//! # Ok(())
//! # }
//! ```
mod kind;
mod laid;
mod pool;
mod query;
mod refusal;
mod windows;

pub mod calls;
pub mod limits;

pub use calls::{grade_of, word_of, SeekStrategy, Sought};
pub use kind::{Cell, Kind};
pub use laid::{Laid, LaidCursor};
pub use pool::{Cursor, Filled, Pool, Rows, RowsIter, Table, Verdict};
pub use query::Query;
pub use refusal::Refusal;
pub use windows::{Piece, Windows};

/// That of the header and of CHANGELOG.md.
pub const VERSION: &str = env!("CARGO_PKG_VERSION");
