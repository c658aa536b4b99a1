//! The kept pairs as an iterator.
use crate::run::Case;
use crate::tables::{kept, pair, table};
use skutlaneb::{Pairs, SequenceTracker, TrackedSeq};
use std::iter::FusedIterator;

pub const CASES: &[Case] = &[
    ("pairs come from both ends, and are counted", both_ends),
    ("a table is what a for loop goes over", for_loop),
    ("pairs are skipped and cloned", skipped_and_cloned),
    ("places beyond the kept pairs are not shown", kept_only),
];

const THREE: [(u64, i64); 3] = [(1, 10), (2, 20), (3, 30)];

fn both_ends() {
    fn is_all<I: DoubleEndedIterator + ExactSizeIterator + FusedIterator + Clone>(_: &I) {}
    let tracker = table(8, 0, &THREE);
    let mut pairs: Pairs<'_> = tracker.pairs();
    is_all(&pairs);
    assert_eq!((pairs.len(), pairs.size_hint()), (3, (3, Some(3))));
    assert_eq!(pairs.next_back(), Some(pair(3, 30)));
    assert_eq!(pairs.next(), Some(pair(1, 10)));
    assert_eq!(pairs.len(), 1);
    assert_eq!((pairs.next_back(), pairs.next_back(), pairs.next()), (Some(pair(2, 20)), None, None));
    assert!(tracker.pairs().rev().eq([(3, 30), (2, 20), (1, 10)].map(TrackedSeq::from)));
}

fn for_loop() {
    let tracker = table(8, 0, &THREE);
    let mut seen = Vec::new();
    for pair in &tracker {
        seen.push(<(u64, i64)>::from(pair));
    }
    assert_eq!(seen, THREE);
    assert_eq!((&SequenceTracker::new()).into_iter().next(), None);
}

fn skipped_and_cloned() {
    let tracker = table(8, 0, &THREE);
    let mut pairs = tracker.pairs();
    assert_eq!(pairs.nth(1), Some(pair(2, 20)));
    assert!(pairs.clone().eq(pairs));
    assert_eq!(tracker.pairs().nth(3), None);
}

fn kept_only() {
    let tracker = table(4, 0, &[(1, 10), (2, 20), (3, 30), (4, 40), (5, 50)]);
    assert_eq!((tracker.pairs().len(), kept(&tracker).len()), (3, 3));
}
