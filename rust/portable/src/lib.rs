//! Translates MIR, which `portable/mir` prints and the proofs are about, to one C99 file with the functions that a header declares.
//!
//! What MIR means is the kit's `Mir/Syntax.antt`, `Mir/Val.antt`, `Prog/Memory.antt` and `Prog/Machine.antt`. In C
//! - integers are unsigned and as wide as in MIR; sums of narrow ones are made at 64 bits and cut, and a signed comparison moves both sides by half the
//!   range. So no C operation is undefined where MIR's is defined, and the proofs say that MIR's is;
//! - `exit n` leaves n + 1 of the blocks and loops around it; if the last of these is a loop, its next turn begins;
//! - an assignment reads all before it writes;
//! - `offset` counts bytes as MIR lays types out, so each type that a pointer leads to must have that size in C, which the file asserts;
//! - memory is only read and written at the type it was declared with, so C's rule on aliasing is kept.
mod body;
mod file;
mod form;
mod function;
mod header;
mod mir;
mod names;
mod shared;
mod types;
mod uses;
mod words;

pub use file::translate;
pub use names::Names;

use std::fmt;

/// A form of MIR, of the header, or of both together, that is not translated.
#[derive(Debug)]
pub struct Refused(String);

impl Refused {
    fn new(what: &str, found: impl fmt::Debug) -> Self {
        let mut text = format!("{found:?}");
        if let Some((end, _)) = text.char_indices().nth(200) {
            text.truncate(end);
        }
        Refused(format!("{what}: {text}"))
    }
}

impl fmt::Display for Refused {
    fn fmt(&self, to: &mut fmt::Formatter) -> fmt::Result {
        write!(to, "refused, {}", self.0)
    }
}

impl std::error::Error for Refused {}
