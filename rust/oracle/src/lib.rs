//! kermit as the oracle: its column trie and its leapfrog triejoin, compiled from its own files.
//!
//! The files are kermit's, byte for byte (`build.rs` says where they are found); nothing of them is copied into this repository. What they lean on and
//! is not at hand stands in `stand_ins.rs`. kermit is several crates; here all of it is one, so each of their names is a name of this crate.
//!
//! Without kermit's source this crate holds nothing but [`PRESENT`] and [`ABSENT`].
#![allow(dead_code)] // kermit's files hold more than the runs ask for

/// Whether kermit's source was there when this crate was built.
pub const PRESENT: bool = cfg!(kermit);

/// What a program says in place of its runs where [`PRESENT`] is false.
pub const ABSENT: &str = "not run: kermit's source is neither at KERMIT_SRC nor at ../shared/docs/src beside the repository";

#[cfg(kermit)]
mod counted;
#[cfg(kermit)]
mod leapfrog;
#[cfg(kermit)]
mod stand_ins;
#[cfg(kermit)]
mod present {
    pub use crate::cardinality::Cardinality;
    pub use crate::column_trie::column_trie_iter::ColumnTrieIter;
    pub use crate::column_trie::implementation::ColumnTrie;
    pub use crate::counted::{taken, Counted};
    pub use crate::leapfrog::Leapfrog;
    pub use crate::relation::Relation;
    pub use crate::seek::{BinarySeek, GallopingSeek, LinearSeek, SeekStrategy};
    pub use crate::sorted::leapfrog_triejoin::LeapfrogTriejoin;
    pub use crate::stand_ins::executed::ExecutedQuery;
    pub use crate::stand_ins::join_algo::JoinAlgo;
    pub use crate::stand_ins::linear::LinearIterator;
    pub use crate::stand_ins::Tuples;
    pub use crate::trie::{TrieIterable, TrieIterator, TrieIteratorWrapper};
}
#[cfg(kermit)]
pub use present::*;
#[cfg(kermit)]
include!(concat!(env!("OUT_DIR"), "/kermit.rs"));
