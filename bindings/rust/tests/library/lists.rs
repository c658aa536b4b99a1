//! Lists of offers.
use crate::run::Case;
use crate::tables::{kept, pair, table};
use skutlaneb::{sys, Error, Inserted, ListError, SequenceTracker, Tally, TrackedSeq};
use std::error::Error as _;

pub const CASES: &[Case] = &[
    ("a list gives what its pairs give one by one", as_one_by_one),
    ("a list stops at the pair that is refused and keeps those before it", stopped),
    ("an empty list does nothing", empty),
    ("a tally is the library's, and adds up what was skipped", tallies),
    ("another table's pairs are offered in order", extended),
    ("a list's refusal says what is kept", sentences),
    ("a list's refusal has its number and its source", why),
    ("a list's refusal becomes an error by ?", as_error),
    ("an error becomes a list's refusal by ?, with no position", apart),
];

fn as_one_by_one() {
    // Every fifth goes back, so that each outcome occurs.
    let second = |i: u64| (i * 7) as i64 - [40, 0, 0, 0, 0][i as usize % 5];
    let pairs: Vec<_> = (0..20_000).map(|i| pair(i * i, second(i))).collect();
    let (mut listed, mut single) = (SequenceTracker::with_config(1000, 20).unwrap(), SequenceTracker::with_config(1000, 20).unwrap());
    let mut tally = Tally::default();
    for &pair in &pairs {
        match single.insert(pair).unwrap() {
            Inserted::Recorded => tally.recorded += 1,
            Inserted::WentBack => tally.went_back += 1,
            Inserted::TooSoon => tally.too_soon += 1,
        }
    }
    assert_eq!(listed.insert_all(&pairs), Ok(tally));
    assert_eq!(tally.recorded + tally.went_back + tally.too_soon, 20_000);
    assert!(tally.recorded > 1000 && tally.went_back > 1000 && tally.too_soon > 1000);
    assert_eq!(listed, single);
    assert_eq!(listed.last_recorded(), single.last_recorded());
}

fn stopped() {
    let mut tracker = SequenceTracker::with_config(8, 10).unwrap();
    let refused = tracker.insert_all(&[pair(5, 0), pair(6, 9), pair(7, 10), pair(6, 20), pair(8, 30)]);
    assert_eq!(refused, Err(ListError::Stopped { at: 3, why: Error::OfferedDrops, before: Tally { recorded: 2, went_back: 0, too_soon: 1 } }));
    assert_eq!(kept(&tracker), [(5, 0), (7, 10)]);
    let refused = tracker.insert_all(&[pair(9, i64::MAX)]);
    assert_eq!(refused, Err(ListError::Stopped { at: 0, why: Error::OfferedOutside, before: Tally::default() }));
    assert_eq!(kept(&tracker), [(5, 0), (7, 10)]);
}

fn empty() {
    let mut tracker = table(8, 0, &[(5, 0)]);
    assert_eq!(tracker.insert_all(&[]), Ok(Tally::default()));
    assert_eq!(tracker.extend_from(&SequenceTracker::new()), Ok(Tally::default()));
    assert_eq!(kept(&tracker), [(5, 0)]);
}

fn tallies() {
    let tally = Tally::from(sys::Tally { recorded: 3, went_back: 2, too_soon: usize::MAX - 2 });
    assert_eq!(tally, Tally { recorded: 3, went_back: 2, too_soon: u64::MAX - 2 });
    assert_eq!((tally.skipped(), Tally { recorded: 3, ..Tally::default() }.skipped()), (u64::MAX, 0));
}

fn extended() {
    let other = table(8, 0, &[(1, 10), (2, 20), (3, 30)]);
    let mut tracker = table(8, 15, &[(2, 5)]);
    assert_eq!(tracker.extend_from(&other), Ok(Tally { recorded: 1, went_back: 0, too_soon: 2 }));
    assert_eq!(kept(&tracker), [(2, 5), (2, 20)]);
    let mut tracker = table(8, 0, &[(2, 5)]);
    assert_eq!(tracker.extend_from(&other), Err(ListError::Stopped { at: 0, why: Error::OfferedDrops, before: Tally::default() }));
    // By its own pairs: those below the last recorded second went back, and the last one is recorded again.
    let mut twice = other.clone();
    assert_eq!(twice.extend_from(&other), Ok(Tally { recorded: 1, went_back: 2, too_soon: 0 }));
}

fn sentences() {
    let refused = stopped_at_1();
    assert_eq!(refused.to_string(), "pair 1 is refused, and what came of those before it is kept");
    let own = ListError::Own(Error::StateDisagrees).to_string();
    let other = ListError::Other(Error::StateDisagrees).to_string();
    assert!(own != other && other.contains("other table"));
}

fn why() {
    let refused = stopped_at_1();
    assert_eq!((refused.why(), refused.number()), (Error::OfferedDrops, 17));
    assert_eq!(refused.source().and_then(|source| source.downcast_ref()), Some(&Error::OfferedDrops));
    for (error, number) in [(ListError::Own(Error::StateDisagrees), 14), (ListError::Other(Error::SecondDrops { index: 3 }), 12)] {
        assert_eq!((error.number(), error.source().map(|source| source.to_string())), (number, Some(error.why().to_string())));
    }
}

/// In a function that answers an `Error`, `?` takes a list's refusal too.
fn as_error() {
    fn offered(pairs: &[TrackedSeq]) -> Result<Tally, Error> {
        let mut tracker = SequenceTracker::with_config(8, 0)?;
        Ok(tracker.insert_all(pairs)?)
    }
    assert_eq!(offered(&[pair(5, 0), pair(6, 1)]), Ok(Tally { recorded: 2, went_back: 0, too_soon: 0 }));
    assert_eq!(offered(&[pair(5, 0), pair(4, 2)]), Err(Error::OfferedDrops));
}

/// In a function that answers a `ListError`, `?` takes the refusal of another call too.
fn apart() {
    fn restored(bytes: &[u8], pairs: &[TrackedSeq]) -> Result<Tally, ListError> {
        SequenceTracker::from_bytes(bytes)?.insert_all(pairs)
    }
    let bytes = table(8192, 10, &[(5, 0)]).to_bytes_strict().unwrap();
    assert_eq!(restored(&bytes, &[pair(6, 9), pair(6, 10)]), Ok(Tally { recorded: 1, went_back: 0, too_soon: 1 }));
    let cut = restored(&bytes[..4], &[]).unwrap_err();
    assert_eq!((cut, cut.number()), (ListError::Apart(Error::HeaderCut), 3));
    assert_eq!(cut.source().and_then(|source| source.downcast_ref()), Some(&Error::HeaderCut));
    assert_eq!(cut.to_string(), "a call apart from the list was refused");
    assert!(matches!(restored(&bytes, &[pair(4, 10)]), Err(ListError::Stopped { at: 0, .. })));
}

fn stopped_at_1() -> ListError {
    table(8, 0, &[(5, 0)]).insert_all(&[pair(6, 1), pair(4, 2)]).unwrap_err()
}
