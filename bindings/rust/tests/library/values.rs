//! Sequences, seconds, the small types, and what README shows.
use crate::run::Case;
use crate::tables::pair;
use skutlaneb::bits::Place;
use skutlaneb::{
    Array, Error, FindOption, Inserted, ListError, NoSystemTime, Pairs, Rfc3339, Second, Seq, SeqSheet, SequenceTracker, Tally, Totals, TrackedSeq,
    TsSheet,
};
use std::collections::HashSet;
use std::hash::Hash;

pub const CASES: &[Case] = &[
    ("numbers become sequences and seconds and come back, and print as numbers", numbers),
    ("two numbers become a pair and come back", two_numbers),
    ("sequences, seconds and pairs are ordered", ordered),
    ("every small type is a key of a map", keys),
    ("every type goes from thread to thread", threads),
    ("README shows the example that is run", readme),
];

fn numbers() {
    assert_eq!((Seq::from(7), Second::from(-7)), (Seq(7), Second(-7)));
    assert_eq!((u64::from(Seq(u64::MAX)), i64::from(Second(i64::MIN))), (u64::MAX, i64::MIN));
    assert_eq!(format!("{} {}", Seq(u64::MAX), Second(i64::MIN)), "18446744073709551615 -9223372036854775808");
}

fn two_numbers() {
    assert_eq!(TrackedSeq::from((7, -5)), TrackedSeq { seq: Seq(7), ts: Second(-5) });
    assert_eq!(<(u64, i64)>::from(TrackedSeq { seq: Seq(7), ts: Second(-5) }), (7, -5));
}

fn ordered() {
    assert!(Seq(1) < Seq(1 << 63) && Second(-1) < Second(0));
    let mut pairs = [pair(2, -5), pair(1, 9), pair(1, -9), pair(1 << 63, -10)];
    pairs.sort();
    assert_eq!(pairs, [pair(1, -9), pair(1, 9), pair(2, -5), pair(1 << 63, -10)]);
    assert!(Array::Sequences < Array::Seconds);
}

fn keys() {
    fn distinct<T: Eq + Hash, const N: usize>(values: [T; N]) -> usize {
        HashSet::from(values).len()
    }
    assert_eq!(distinct([Seq(1), Seq(2), Seq(1)]), 2);
    assert_eq!(distinct([Second(1), Second(-1), Second(1)]), 2);
    assert_eq!(distinct([pair(1, 2), pair(1, 3), pair(1, 2)]), 2);
    assert_eq!(distinct([FindOption::RoundUp, FindOption::RoundDown]), 2);
    assert_eq!(distinct([Inserted::Recorded, Inserted::WentBack, Inserted::TooSoon]), 3);
    let (recorded, went_back, too_soon) = (1, 1, 1);
    let none = Tally { recorded: 0, went_back: 0, too_soon: 0 };
    assert_eq!(distinct([Tally::default(), none, Tally { recorded, ..none }, Tally { went_back, ..none }, Tally { too_soon, ..none }]), 4);
    let (totals, refused) = (Totals::default(), 1);
    let one_each = [Totals { recorded, ..totals }, Totals { went_back, ..totals }, Totals { too_soon, ..totals }, Totals { refused, ..totals }];
    assert_eq!((distinct(one_each), distinct([totals, Totals { recorded: 0, went_back: 0, too_soon: 0, refused: 0 }])), (4, 1));
    assert_eq!(distinct([Array::Sequences, Array::Seconds]), 2);
    assert_eq!(distinct([Error::Empty, Error::Settings, Error::Empty]), 2);
    assert_eq!(distinct([ListError::Own(Error::Empty), ListError::Other(Error::Empty)]), 2);
    assert_eq!(distinct([NoSystemTime(Second(1)), NoSystemTime(Second(2))]), 2);
    assert_eq!(distinct([Place { byte: 1, bit: 0 }, Place { byte: 0, bit: 1 }]), 2);
    assert_eq!(distinct([0, 1, 0].map(|second| Second(second).to_rfc3339().unwrap())), 2);
    assert_eq!(distinct([&[Seq(1)][..], &[Seq(2)], &[Seq(1)], &[]].map(|keys| TsSheet::of(keys).unwrap())), 3);
    assert_eq!(distinct([&[Second(1)][..], &[Second(2)], &[Second(1)], &[Second(1); 2]].map(|keys| SeqSheet::of(keys).unwrap())), 3);
}

fn threads() {
    fn goes<T: Send + Sync + Unpin + std::panic::UnwindSafe + 'static>() {}
    goes::<(SequenceTracker, Pairs<'static>, TsSheet, SeqSheet, Totals, Error, ListError, NoSystemTime, Rfc3339)>();
}

fn readme() {
    let example = include_str!("../../examples/moving.rs");
    let readme = include_str!("../../../../README.md");
    assert!(readme.contains(&format!("```rust\n{example}```\n")));
    let output: String = include_str!("../../examples/moving.out").lines().map(|line| format!("    {line}\n")).collect();
    assert!(readme.contains(&output));
}
