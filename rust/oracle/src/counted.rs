//! Counts of seeks and probes, taken from outside: a strategy that wraps one of kermit's.
use crate::{LayoutOption, SeekStrategy};
use std::cell::Cell;
use std::marker::PhantomData;

thread_local! {
    static SEEKS: Cell<usize> = const { Cell::new(0) };
    static PROBES: Cell<usize> = const { Cell::new(0) };
}

/// `S`, counted.
pub struct Counted<S>(PhantomData<S>);

impl<S> Clone for Counted<S> {
    fn clone(&self) -> Self {
        *self
    }
}
impl<S> Copy for Counted<S> {}
impl<S> Default for Counted<S> {
    fn default() -> Self {
        Counted(PhantomData)
    }
}
impl<S: SeekStrategy> std::fmt::Debug for Counted<S> {
    fn fmt(&self, f: &mut std::fmt::Formatter) -> std::fmt::Result {
        write!(f, "Counted({:?})", S::default())
    }
}
impl<S: SeekStrategy> LayoutOption for Counted<S> {
    const NAME: &'static str = S::NAME;
}
impl<S: SeekStrategy> SeekStrategy for Counted<S> {
    fn partition_point<T, P: FnMut(&T) -> bool>(remaining: &[T], mut below: P) -> usize {
        SEEKS.set(SEEKS.get() + 1);
        S::partition_point(remaining, |key| {
            PROBES.set(PROBES.get() + 1);
            below(key)
        })
    }
}

/// The seeks and the probes that [`Counted`] strategies made in this thread since the last call.
pub fn taken() -> (usize, usize) {
    (SEEKS.take(), PROBES.take())
}
