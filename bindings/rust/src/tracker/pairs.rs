//! The kept pairs as an iterator.
use super::SequenceTracker;
use crate::TrackedSeq;
use std::iter::{Copied, FusedIterator, Zip};
use std::slice::Iter;

/// The pairs that a table keeps, in order: what [`SequenceTracker::pairs`] gives.
#[derive(Clone, Debug)]
pub struct Pairs<'a>(Zip<Copied<Iter<'a, u64>>, Copied<Iter<'a, i64>>>);

impl Iterator for Pairs<'_> {
    type Item = TrackedSeq;

    fn next(&mut self) -> Option<TrackedSeq> {
        self.0.next().map(TrackedSeq::from)
    }

    fn size_hint(&self) -> (usize, Option<usize>) {
        self.0.size_hint()
    }

    fn nth(&mut self, n: usize) -> Option<TrackedSeq> {
        self.0.nth(n).map(TrackedSeq::from)
    }
}

impl DoubleEndedIterator for Pairs<'_> {
    fn next_back(&mut self) -> Option<TrackedSeq> {
        self.0.next_back().map(TrackedSeq::from)
    }
}

impl ExactSizeIterator for Pairs<'_> {}

impl FusedIterator for Pairs<'_> {}

impl SequenceTracker {
    /// The kept pairs, in order. They are not checked here: [`SequenceTracker::check`] does that.
    pub fn pairs(&self) -> Pairs<'_> {
        // No state that a call returns counts more pairs than the arrays have places.
        let n = self.len();
        Pairs(self.seqs[..n].iter().copied().zip(self.secs[..n].iter().copied()))
    }
}

impl<'a> IntoIterator for &'a SequenceTracker {
    type Item = TrackedSeq;
    type IntoIter = Pairs<'a>;

    fn into_iter(self) -> Pairs<'a> {
        self.pairs()
    }
}
