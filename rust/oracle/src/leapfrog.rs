//! kermit's leapfrog join, which it keeps to itself, opened to the runs without a change to its file.
use crate::sorted::leapfrog_join::LeapfrogJoinIter;
use crate::LinearIterator;

pub struct Leapfrog<I: LinearIterator>(LeapfrogJoinIter<I>);

impl<I: LinearIterator> Leapfrog<I> {
    pub fn new(iterators: Vec<I>) -> Self {
        Leapfrog(LeapfrogJoinIter::new(iterators))
    }
    /// The iterators, in the order in which they were given.
    pub fn iterators(&self) -> &[I] {
        &self.0.iterators
    }
    /// Algorithm 1: whether there is a common key.
    pub fn init(&mut self) -> bool {
        self.0.leapfrog_init()
    }
    pub fn key(&self) -> Option<usize> {
        self.0.key()
    }
    pub fn at_end(&self) -> bool {
        self.0.at_end()
    }
    pub fn next_key(&mut self) -> Option<usize> {
        self.0.leapfrog_next()
    }
    pub fn seek(&mut self, key: usize) -> bool {
        self.0.leapfrog_seek(key)
    }
}
