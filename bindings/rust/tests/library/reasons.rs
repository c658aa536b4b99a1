//! Why an offer is skipped.
use crate::run::Case;
use crate::tables::{but_totals, kept, pair, table};
use skutlaneb::sys::{self, Answer, State, TableAnswer};
use skutlaneb::Inserted::{Recorded, TooSoon, WentBack};
use skutlaneb::{Error, Inserted, ListError, Second, SequenceTracker, Tally, Totals, TrackedSeq};

pub const CASES: &[Case] = &[
    ("each reason begins and ends where its rule says", limits),
    ("the last recorded second decides, and not the last kept one", last_recorded),
    ("a restored table's last recorded second is its last kept one", restored),
    ("a sequence that drops is refused by 17 only where its pair is not skipped, and 16 comes before both", order),
    ("a list counts each reason apart, up to the pair that is refused", lists),
    ("a list that is skipped leaves the table as it was but for its totals", all_skipped),
    ("another table's pairs are counted by the reason, too", extended),
    ("skipped for either reason, a call of the library leaves the state but for a total, and the whole arrays, as they were", untouched),
    ("a call of the library that is refused, or that makes a table, counts nothing in its tally", uncounted),
];

const FIRST_SECOND: i64 = -62_135_596_800;
const LAST_SECOND: i64 = 253_402_300_799;

/// What comes of a second, offered after a recorded one at an interval. Skipped, the table is as it was but for its totals.
fn after(interval_secs: u64, last: i64, second: i64) -> Inserted {
    let mut tracker = table(8192, interval_secs, &[(5, last)]);
    let before = but_totals(&tracker);
    let inserted = tracker.insert(pair(6, second)).unwrap();
    match inserted {
        Recorded => assert_eq!((kept(&tracker), tracker.last_recorded()), (vec![(5, last), (6, second)], Some(Second(second)))),
        WentBack | TooSoon => assert_eq!(but_totals(&tracker), before),
    }
    inserted
}

fn limits() {
    let at_60 = [98, 99, 100, 101, 159, 160, 161].map(|second| after(60, 100, second));
    assert_eq!(at_60, [WentBack, WentBack, TooSoon, TooSoon, TooSoon, Recorded, Recorded]);
    assert_eq!([99, 100, 101].map(|second| after(1, 100, second)), [WentBack, TooSoon, Recorded]);
    assert_eq!([99, 100, 101].map(|second| after(0, 100, second)), [WentBack, Recorded, Recorded]);
    assert_eq!([-11, -10, -1, 0].map(|second| after(10, -10, second)), [WentBack, TooSoon, TooSoon, Recorded]);
    for interval_secs in [0, 1, (1 << 63) - 1] {
        assert_eq!(after(interval_secs, LAST_SECOND, FIRST_SECOND), WentBack);
    }
    assert_eq!(after((1 << 63) - 1, FIRST_SECOND, LAST_SECOND), TooSoon);
    // Before a second was recorded nothing is skipped: `table` offers the first pair to an empty table.
    table(8192, (1 << 63) - 1, &[(5, FIRST_SECOND)]);
}

fn last_recorded() {
    let full = table(3, 0, &[(1, 10), (2, 20), (3, 30), (4, 40)]);
    assert_eq!((kept(&full), full.last_recorded()), (vec![(1, 10), (3, 30)], Some(Second(40))));
    for (seq, second, inserted) in [(9, 39, WentBack), (9, 30, WentBack), (9, 40, Recorded), (3, 45, Recorded)] {
        assert_eq!(full.clone().insert(pair(seq, second)), Ok(inserted));
    }
}

fn restored() {
    let mut saved = table(3, 0, &[(1, 10), (2, 20), (3, 30), (4, 40)]);
    let image = saved.to_bytes_strict().unwrap();
    assert_eq!(saved.insert(pair(9, 39)), Ok(WentBack));
    // The interval is 10, or the one that is named.
    let restored = [SequenceTracker::from_bytes(&image), SequenceTracker::from_bytes_with_interval(&image, 60)];
    for (back, next) in restored.into_iter().zip([40, 90]) {
        let mut back = back.unwrap();
        assert_eq!(back.insert(pair(9, 39)), Ok(TooSoon));
        assert_eq!([29, 30, next - 1, next].map(|second| back.insert(pair(9, second))), [Ok(WentBack), Ok(TooSoon), Ok(TooSoon), Ok(Recorded)]);
    }
}

fn order() {
    let mut tracker = table(8192, 60, &[(5, 100)]);
    assert_eq!([99, 159].map(|second| tracker.insert(pair(4, second))), [Ok(WentBack), Ok(TooSoon)]);
    assert_eq!(tracker.insert(pair(4, 160)), Err(Error::OfferedDrops));
    assert_eq!(tracker.insert(pair(4, FIRST_SECOND - 1)), Err(Error::OfferedOutside));
    let mut longest = table(8192, (1 << 63) - 1, &[(5, 100)]);
    assert_eq!(longest.insert(pair(6, LAST_SECOND + 1)), Err(Error::OfferedOutside));
}

/// Three recorded, two that went back and one too soon, at interval 10.
const SIX: [(u64, i64); 6] = [(5, 100), (6, 99), (6, 109), (6, 110), (7, 100), (7, 125)];
const OF_SIX: Tally = Tally { recorded: 3, went_back: 2, too_soon: 1 };

fn lists() {
    let whole = SequenceTracker::with_config(8, 10).unwrap().insert_all(&SIX.map(TrackedSeq::from));
    assert_eq!(whole, Ok(OF_SIX));
    for (refused, why) in [((6, 200), Error::OfferedDrops), ((8, LAST_SECOND + 1), Error::OfferedOutside)] {
        let mut tracker = SequenceTracker::with_config(8, 10).unwrap();
        let pairs: Vec<TrackedSeq> = SIX.into_iter().chain([refused, (8, 300)]).map(TrackedSeq::from).collect();
        assert_eq!(tracker.insert_all(&pairs), Err(ListError::Stopped { at: 6, why, before: OF_SIX }));
        assert_eq!((kept(&tracker), tracker.last_recorded()), (vec![(5, 100), (6, 110), (7, 125)], Some(Second(125))));
    }
}

fn all_skipped() {
    let mut tracker = table(8, 10, &[(5, 100)]);
    let before = but_totals(&tracker);
    // Each sequence drops, too.
    assert_eq!(tracker.insert_all(&[(1, 99), (1, 100), (1, 109)].map(TrackedSeq::from)), Ok(Tally { recorded: 0, went_back: 1, too_soon: 2 }));
    assert_eq!((but_totals(&tracker), tracker.totals()), (before, Totals { recorded: 1, went_back: 1, too_soon: 2, refused: 0 }));
}

fn extended() {
    let other = table(8, 0, &[(1, 10), (2, 20), (3, 24), (4, 30), (5, 39), (6, 40)]);
    let mut tracker = table(8, 15, &[(5, 25)]);
    assert_eq!(tracker.extend_from(&other), Ok(Tally { recorded: 1, went_back: 3, too_soon: 2 }));
    assert_eq!(kept(&tracker), [(5, 25), (6, 40)]);
    let other = table(8, 0, &[(1, 10), (2, 20), (3, 24), (4, 40), (6, 60)]);
    let mut tracker = table(8, 10, &[(5, 21)]);
    let before = Tally { recorded: 0, went_back: 2, too_soon: 1 };
    assert_eq!(tracker.extend_from(&other), Err(ListError::Stopped { at: 3, why: Error::OfferedDrops, before }));
    assert_eq!(kept(&tracker), [(5, 21)]);
}

type Arrays = ([u64; 6], [i64; 6]);

/// A table of two pairs and last recorded second 100, in arrays that hold other values past the pairs.
const GOOD: State = State { count: 2, capacity: 4, has_last: 1, interval_secs: 10, last: 100, totals: COUNTED };
const COUNTED: sys::Totals = sys::Totals { recorded: 7, went_back: 5, too_soon: 3, refused: 1 };
const LENT: Arrays = ([3, 5, 91, 92, 93, 94], [50, 90, -91, -92, -93, -94]);

/// A pair offered to that table, or to its arrays with another state, by each call of the library that offers: what it answers, and the arrays afterwards.
fn by_each_call(state: State, seq: u64, second: i64) -> [(TableAnswer, Arrays); 3] {
    let other = State { count: 1, capacity: 1, has_last: 1, interval_secs: 0, last: second, totals: sys::Totals::default() };
    ["skut_offer", "skut_offer_pairs", "skut_extend_from"].map(|call| {
        let (mut seqs, mut secs) = LENT;
        let (s, z) = (seqs.as_mut_ptr(), secs.as_mut_ptr());
        let told = match call {
            "skut_offer" => unsafe { sys::skut_offer(state, s, 6, z, 6, seq, second) },
            "skut_offer_pairs" => unsafe { sys::skut_offer_pairs(state, s, 6, z, 6, &seq, 1, &second, 1) },
            _ => unsafe { sys::skut_extend_from(state, s, 6, z, 6, other, &seq, 1, &second, 1) },
        };
        (told, (seqs, secs))
    })
}

fn untouched() {
    let (answer, none) = (Answer::default(), sys::Tally::default());
    let went_back = (sys::Tally { went_back: 1, ..none }, sys::Totals { went_back: 6, ..COUNTED });
    let too_soon = (sys::Tally { too_soon: 1, ..none }, sys::Totals { too_soon: 4, ..COUNTED });
    for (second, (tally, totals)) in [(99, went_back), (95, went_back), (100, too_soon), (109, too_soon)] {
        // A sequence that drops, and one that does not.
        for seq in [4, 6] {
            let state = State { totals, ..GOOD };
            assert_eq!(by_each_call(GOOD, seq, second), [(TableAnswer { answer, tally, state }, LENT); 3], "({seq}, {second})");
        }
    }
    let state = State { count: 3, last: 110, totals: sys::Totals { recorded: 8, ..COUNTED }, ..GOOD };
    let recorded = TableAnswer { answer, tally: sys::Tally { recorded: 1, ..none }, state };
    assert_eq!(by_each_call(GOOD, 6, 110), [(recorded, ([3, 5, 6, 92, 93, 94], [50, 90, 110, -92, -93, -94])); 3]);
}

fn uncounted() {
    let none = sys::Tally::default();
    let disagrees = State { has_last: 2, ..GOOD };
    let no_state = unsafe { sys::skut_with_config(8193, 0) }.state;
    // 16 and 17 come with a state, which counts the refusal.
    let refused = State { totals: sys::Totals { refused: 2, ..COUNTED }, ..GOOD };
    // No good table has a second outside the years, so that another table's pairs are not refused by 16.
    let offers = [(disagrees, 6, 99, 14, 3, no_state), (GOOD, 6, LAST_SECOND + 1, 16, 2, refused), (GOOD, 4, 110, 17, 3, refused)];
    for (state, seq, second, number, calls, after) in offers {
        for (told, arrays) in &by_each_call(state, seq, second)[..calls] {
            assert_eq!((told.answer.number, told.tally, told.state, *arrays), (number, none, after, LENT));
        }
    }
    let image = table(8192, 60, &[(5, 100)]).to_bytes_strict().unwrap();
    let (mut seqs, mut secs) = (vec![0; 8192], vec![0; 8192]);
    let (s, z) = (seqs.as_mut_ptr(), secs.as_mut_ptr());
    let (b, k) = (image.as_ptr(), image.len());
    let made = unsafe { [sys::skut_new(), sys::skut_with_config(4, 10), sys::skut_restore(b, k, s, 8192, z, 8192)] };
    let at_60 = unsafe { sys::skut_restore_with_interval(b, k, s, 8192, z, 8192, 60) };
    assert_eq!(made.map(|told| (told.answer.number, told.tally)), [(0, none); 3]);
    assert_eq!((at_60.answer.number, at_60.tally), (0, none));
}
