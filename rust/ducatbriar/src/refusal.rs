//! A refusal: its number, its name, and what it means.
use crate::limits::{MAX_ARITY, MAX_ATOMS, MAX_CAPACITY, MAX_TABLES, MAX_VARIABLES};
use std::error::Error;
use std::fmt;

/// Declares the refusals, with the way back from their numbers.
macro_rules! refusals {
    ($($(#[$doc:meta])* $name:ident = $number:literal),+ $(,)?) => {
        /// Why a call did nothing: named as in include/ducatbriar.h, with the number that document 01 gives it.
        ///
        /// ```
        /// use ducatbriar::{Pool, Refusal};
        /// let refusal = Pool::new().build(9, 1, &[[0u64; 9]]).unwrap_err();
        /// assert_eq!(refusal, Refusal::BadArity);
        /// assert_eq!(refusal.number(), 1);
        /// assert_eq!(refusal.to_string(), "refused with 1: the arity is 0 or over 8");
        /// ```
        #[derive(Clone, Copy, Debug, PartialEq, Eq, Hash)]
        #[repr(u64)]
        pub enum Refusal { $($(#[$doc])* $name = $number),+ }

        impl Refusal {
            pub const ALL: &[Refusal] = &[$(Refusal::$name),+];

            /// That of a number in an answer of [`calls`](crate::calls); none for 0, and for a number that no call gives.
            pub fn of(number: u64) -> Option<Refusal> {
                match number {
                    $($number => Some(Refusal::$name),)+
                    _ => None,
                }
            }
        }
    };
}

refusals!(
    /// By a build, or a lookup in tables of one column.
    BadArity = 1,
    /// By a build, a rebuild or a read.
    BadCapacity = 2,
    /// By a build, a rebuild or a read; never by those of a [`Pool`](crate::Pool), which makes room.
    OutsidePool = 3,
    /// By a build, an insert or a removal.
    BadLength = 4,
    /// By a build, a rebuild, an insert or a read.
    NoRoom = 5,
    /// By a rebuild, an insert, a removal, a listing, a write, a cursor, a lookup or a join.
    Damaged = 6,
    /// By a cursor.
    BadCursor = 7,
    /// By a join, or a rebuild whose numbers are no permutation of the columns.
    BadOrder = 8,
    /// By a join.
    BadAtoms = 9,
    /// By a join.
    BadList = 10,
    /// By a join.
    FreeVariable = 11,
    /// By a join, whose window holds the rows that fit. [`Pool::join_into`](crate::Pool::join_into) says it as [`Filled::full`](crate::Filled::full), and
    /// [`Pool::join_after_into`](crate::Pool::join_after_into) as [`Piece::full`](crate::Piece::full).
    Full = 12,
    /// By a read.
    NotAFile = 13,
    /// By a listing or a write; never by those of a [`Pool`](crate::Pool) or a [`Table`](crate::Table), which make room.
    LongText = 14,
    /// By a join: a grade is joined to what is none.
    MixedKinds = 15,
    /// By a join whose window is not whole rows, never by [`Pool::join`](crate::Pool::join) or [`Pool::windows`](crate::Pool::windows), whose own windows are; or by
    /// a check of a listing that is not.
    PartRows = 16,
    /// By a join, a lookup or a cursor over two tables, one laid over the other, that are not of the same arity and kinds.
    OtherShape = 17,
);

impl Refusal {
    /// `Ok` for number 0, which no refusal has.
    pub(crate) fn check(number: u64) -> Result<(), Refusal> {
        if number == 0 {
            return Ok(());
        }
        Err(Refusal::of(number).unwrap_or_else(|| unreachable!("no call gives {number}")))
    }

    pub fn number(self) -> u64 {
        self as u64
    }

    /// The text that ducatbriar_meaning of include/ducatbriar.h gives.
    pub fn meaning(self) -> String {
        match self {
            Refusal::BadArity => format!("the arity is 0 or over {MAX_ARITY}"),
            Refusal::BadCapacity => format!("the capacity is 0 or over {MAX_CAPACITY}"),
            Refusal::BadOrder => {
                format!(
                    "the order is not a permutation of the variables, or there are over {MAX_VARIABLES} of them, or the columns are not one of the table's"
                )
            }
            Refusal::BadAtoms => format!("there are over {MAX_ATOMS} atoms or {MAX_TABLES} tables, or an atom names no table"),
            refusal => refusal.plain().into(),
        }
    }

    /// Of the refusals that speak of no limit; empty for the others.
    fn plain(self) -> &'static str {
        match self {
            Refusal::OutsidePool => "the table's words do not lie in the pool",
            Refusal::BadLength => "the words are not whole rows, or the tuple is not as long as the arity",
            Refusal::NoRoom => {
                "there are more rows than the capacity, duplicates counted, or the tuple is new and the table full"
            }
            Refusal::Damaged => "the table is damaged, or the pool is not its own",
            Refusal::BadCursor => "the cursor does not stand in the table",
            Refusal::BadList => {
                "an atom's list is not as long as its table's arity, holds a number that is no variable, or does not strictly follow the order"
            }
            Refusal::FreeVariable => "some variable is in no atom",
            Refusal::Full => "more rows exist than fit the window",
            Refusal::NotAFile => "the bytes are not a table file",
            Refusal::LongText => "the text or file is longer than its destination",
            Refusal::MixedKinds => "some variable binds columns of both kinds, plain and grade",
            Refusal::PartRows => "the length of the window or listing is no whole number of rows",
            Refusal::OtherShape => "two tables laid over one another are not of the same arity and kinds",
            Refusal::BadArity | Refusal::BadCapacity | Refusal::BadOrder | Refusal::BadAtoms => "",
        }
    }
}

impl fmt::Display for Refusal {
    fn fmt(&self, f: &mut fmt::Formatter) -> fmt::Result {
        write!(f, "refused with {}: {}", self.number(), self.meaning())
    }
}

impl Error for Refusal {}
