//! Sees that nothing is written where a shared reference leads: what uses.rs leaves out relies on that.
//!
//! The compiler holds references to Rust's rules, but MIR steps over slices and arrays by plain pointers, whose type does not tell what they may do. One that came of
//! a shared reference may go to other such locals, to where only shared references stand, and to calls that only read by it (the library's copy of a slice); no
//! statement may write by it, and it may go nowhere else.
use crate::mir::{Function, Op2, Operand, Place, Shape, Step, Ty, Value};
use crate::uses::{acts, may_write, type_of, Act};
use crate::Refused;
use std::collections::{BTreeMap, BTreeSet};

/// The parameters of functions so far that are plain pointers and are only read through, by symbol and number.
pub type Readers = BTreeSet<(String, usize)>;

/// Refuses a function that may write by what came of a shared reference, and notes of its parameters which might be that.
pub fn only_read(function: &Function, shapes: &BTreeMap<String, Shape>, readers: &mut Readers) -> Result<(), Refused> {
    let mut found = Vec::new();
    acts(&function.body, &mut found);
    let shared = |came| Shared { function, shapes, readers, came };
    let none = vec![false; function.locals.len()];
    if let Some(place) = shared(none.clone()).wrong(&found) {
        return Err(Refused::new(&format!("{}: a pointer of a shared reference to write by", function.symbol), place));
    }
    let is_read = |&param: &usize| {
        let mut came = none.clone();
        came[param] = true;
        function.locals[param].ty == Ty::Ptr && shared(came).wrong(&found).is_none()
    };
    let read: Vec<usize> = (1..=function.params).filter(is_read).collect();
    readers.extend(read.into_iter().map(|param| (function.symbol.clone(), param)));
    Ok(())
}

struct Shared<'a> {
    function: &'a Function,
    shapes: &'a BTreeMap<String, Shape>,
    readers: &'a Readers,
    /// Whether the local is a plain pointer that may have come of a shared reference.
    came: Vec<bool>,
}

impl Shared<'_> {
    /// Where such a pointer goes that might be written by, if anywhere.
    fn wrong<'b>(mut self, found: &[Act<'b>]) -> Option<&'b Place> {
        let mut before = usize::MAX;
        while before != self.count() {
            before = self.count();
            for act in found {
                match act {
                    Act::Assign(to, value) if self.is_plain(to) && self.gives(value) => self.came[to.local] = true,
                    _ => {}
                }
            }
        }
        found.iter().find_map(|act| match act {
            Act::Assign(to, value) => self.assigns_wrong(to, value).then_some(*to),
            Act::Call(symbol, given, to) => self.calls_wrong(symbol, given, to).then_some(*to),
            Act::Test(_) => None,
        })
    }

    fn count(&self) -> usize {
        self.came.iter().filter(|came| **came).count()
    }

    fn type_of(&self, place: &Place) -> Option<Ty> {
        type_of(place, &self.function.locals, self.shapes)
    }

    fn may_write(&self, place: &Place) -> bool {
        self.type_of(place).is_none_or(|ty| may_write(&ty, self.shapes))
    }

    /// Whether the place is a whole local that is a plain pointer.
    fn is_plain(&self, place: &Place) -> bool {
        place.steps.is_empty() && self.function.locals.get(place.local).is_some_and(|local| local.ty == Ty::Ptr)
    }

    /// Whether what lies at the place is a shared reference or slice, or a pointer that may have come of one.
    fn is_shared(&self, place: &Place) -> bool {
        let kind = self.type_of(place);
        matches!(kind, Some(Ty::Ref { mutable: false, .. } | Ty::Slice { mutable: false, .. }))
            || (self.is_plain(place) && self.came[place.local])
    }

    /// Whether a shared reference leads to the place.
    fn lies_behind(&self, place: &Place) -> bool {
        let front = |at: usize| Place { local: place.local, steps: place.steps[..at].to_vec() };
        (0..place.steps.len()).any(|at| matches!(place.steps[at], Step::Deref(_)) && self.is_shared(&front(at)))
    }

    /// Whether the operand is a pointer that came of a shared reference, or lay where one leads. (a struct keeps its types, and the compiler's check of them)
    fn is_got(&self, operand: &Operand) -> bool {
        let Operand::Copy(place) = operand else { return false };
        let is_pointer = matches!(self.type_of(place), Some(Ty::Ptr | Ty::Ref { .. } | Ty::Slice { .. }));
        self.is_shared(place) || (is_pointer && self.lies_behind(place))
    }

    /// Whether the value is, or has in it, what came of a shared reference.
    fn gives(&self, value: &Value) -> bool {
        match value {
            Value::Operand(one) | Value::Op2(Op2::Offset, one, _) | Value::Repeat(one, _) => self.is_got(one),
            Value::AddrOf(place) => self.lies_behind(place),
            Value::Aggregate(parts) => parts.iter().any(|one| self.is_loose(one)),
            Value::Op2(..) | Value::Op1(..) | Value::Lent(..) => false,
        }
    }

    /// Whether the operand came of a shared reference, and its type would let who has it write.
    fn is_loose(&self, operand: &Operand) -> bool {
        matches!(operand, Operand::Copy(place) if self.is_got(operand) && self.may_write(place))
    }

    /// (local 0 goes to the caller)
    fn assigns_wrong(&self, to: &Place, value: &Value) -> bool {
        let stays = self.is_plain(to) && to.local != 0;
        self.lies_behind(to) || (self.gives(value) && self.may_write(to) && !stays)
    }

    fn calls_wrong(&self, symbol: &str, given: &[Operand], to: &Place) -> bool {
        let reads = |at: usize| self.readers.contains(&(symbol.to_string(), at + 1));
        self.lies_behind(to) || given.iter().enumerate().any(|(at, one)| self.is_loose(one) && !reads(at))
    }
}
