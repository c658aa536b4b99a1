//! Why a lookup answers as it does: each reason beside a plain look at every kept pair, and the answer beside the lookup's.
use crate::chance::Chance;
use crate::run::Case;
use crate::tables::{kept, table};
use skutlaneb::sys::{self, Answer, State, Totals, WhyAnswer};
use skutlaneb::FindOption::{self, RoundDown, RoundUp};
use skutlaneb::Reason::{AfterLast, BeforeFirst, Empty, Exact, RoundedDown, RoundedUp};
use skutlaneb::{Error, Reason, Rfc3339, Second, Seq, SequenceTracker, TrackedSeq, Why};
use std::collections::BTreeMap;

pub const CASES: &[Case] = &[
    ("each reason by hand, by sequence and by second", by_hand),
    ("a table that keeps no pair has one reason for every question", empty),
    ("the least and the greatest keys that a table keeps, and that can be asked for", ends),
    ("the first and the last position of a full table, with rising keys and with equal ones", full),
    ("random tables with equal keys: the reason is that of a look at every pair, and the answer the lookup's", random),
    ("the same about the sizes at which the library's search changes", sizes),
    ("the same after halvings, and after a restore", halved_and_restored),
    ("a question is asked by numbers, sequences, seconds and dates, as a lookup is", asked_by),
    ("a reason prints in the words of the program why", words),
    ("a reason that the library does not tell is an error", impossible),
    ("raw: every rounding but 0 is down, and all that is not told is 0", raw_rounds),
    ("raw: a bad table is refused by its number, with no reason and no position", raw_bad),
];

/// The reason by the rules, found by a look at every key.
fn looked_at<K: Ord>(keys: &[K], asked: &K, opt: FindOption) -> Reason {
    let equal: Vec<usize> = (0..keys.len()).filter(|&i| keys[i] == *asked).collect();
    let below = (0..keys.len()).filter(|&i| keys[i] < *asked).max();
    let above = (0..keys.len()).filter(|&i| keys[i] > *asked).min();
    match (opt, equal.as_slice(), below, above) {
        (_, [], None, None) => Empty,
        (RoundUp, [position, ..], ..) | (RoundDown, [.., position], ..) => Exact { position: *position },
        (RoundUp, [], below, Some(above)) => RoundedUp { below, above },
        (RoundUp, [], _, None) => AfterLast,
        (RoundDown, [], Some(below), above) => RoundedDown { below, above },
        (RoundDown, [], None, _) => BeforeFirst,
    }
}

/// The position of the pair that answers.
fn answering(reason: Reason) -> Option<usize> {
    match reason {
        Exact { position } => Some(position),
        RoundedUp { above, .. } => Some(above),
        RoundedDown { below, .. } => Some(below),
        BeforeFirst | AfterLast | Empty => None,
    }
}

/// How often each reason came, by what was asked, with a missing neighbour apart.
type Seen = BTreeMap<(&'static str, &'static str), usize>;

fn kind(reason: Reason) -> &'static str {
    match reason {
        Exact { .. } => "exact",
        RoundedUp { below: Some(_), .. } => "rounded up",
        RoundedUp { below: None, .. } => "rounded up from below the first",
        RoundedDown { above: Some(_), .. } => "rounded down",
        RoundedDown { above: None, .. } => "rounded down from above the last",
        BeforeFirst => "before the first",
        AfterLast => "after the last",
        Empty => "empty",
    }
}

/// All kinds, by both columns.
const KINDS: usize = 2 * 8;

/// One question by sequence and one by second, both ways.
fn ask(seen: &mut Seen, tracker: &SequenceTracker, pairs: (&[u64], &[i64]), seq: u64, sec: i64) {
    for opt in [RoundUp, RoundDown] {
        let reason = looked_at(pairs.0, &seq, opt);
        let answer = answering(reason).map(|at| Second(pairs.1[at]));
        assert_eq!(tracker.why_ts(seq, opt), Ok(Why { reason, answer }), "sequence {seq}, {opt:?}, in {tracker:?}");
        assert_eq!(tracker.find_ts(seq, opt), Ok(answer), "sequence {seq}, {opt:?}, in {tracker:?}");
        *seen.entry(("by sequence", kind(reason))).or_default() += 1;
        let reason = looked_at(pairs.1, &sec, opt);
        let answer = answering(reason).map(|at| Seq(pairs.0[at]));
        assert_eq!(tracker.why_seq(sec, opt), Ok(Why { reason, answer }), "second {sec}, {opt:?}, in {tracker:?}");
        assert_eq!(tracker.find_seq(sec, opt), Ok(answer), "second {sec}, {opt:?}, in {tracker:?}");
        *seen.entry(("by second", kind(reason))).or_default() += 1;
    }
}

/// Questions about so many of a table's keys, and at the ends of the numbers.
fn ask_about(seen: &mut Seen, chance: &mut Chance, tracker: &SequenceTracker, times: usize) {
    let (seqs, secs): (Vec<u64>, Vec<i64>) = kept(tracker).into_iter().unzip();
    for _ in 0..times {
        let near = |chance: &mut Chance| chance.below(3) as i64 - 1;
        let (i, j) = (chance.below(seqs.len().max(1) as u64) as usize, chance.below(secs.len().max(1) as u64) as usize);
        let seq = seqs.get(i).copied().unwrap_or(7).wrapping_add(near(chance) as u64);
        let sec = secs.get(j).copied().unwrap_or(7) + near(chance);
        ask(seen, tracker, (&seqs, &secs), seq, sec);
    }
    for (seq, sec) in [(0, i64::MIN), (u64::MAX, i64::MAX), (1 << 63, 0), ((1 << 63) - 1, -1)] {
        ask(seen, tracker, (&seqs, &secs), seq, sec);
    }
}

/// Pairs in order, with runs of equal keys in either column.
fn pairs_of(chance: &mut Chance, n: u64) -> Vec<TrackedSeq> {
    let (mut seq, mut sec) = (chance.below(5), chance.below(10) as i64 - 1000);
    let runs = (1 + chance.below(4), 1 + chance.below(4));
    let mut pairs = Vec::new();
    for _ in 0..n {
        pairs.push(TrackedSeq::from((seq, sec)));
        seq += if chance.once_in(runs.0) { chance.below(4) } else { 0 };
        sec += if chance.once_in(runs.1) { chance.below(4) as i64 } else { 0 };
    }
    pairs
}

/// A table of capacity 8,192 and interval 0 with these pairs, none of which is dropped.
fn with(pairs: &[TrackedSeq]) -> SequenceTracker {
    let mut tracker = table(8192, 0, &[]);
    tracker.insert_all(pairs).unwrap();
    assert!(tracker.pairs().eq(pairs.iter().copied()));
    tracker
}

fn by_hand() {
    let tracker = table(8, 0, &[(5, -30), (5, -20), (7, -20), (7, -20), (9, -20), (9, 40)]);
    let ts = |seq: u64, opt| tracker.why_ts(seq, opt).map(|why| (why.reason, why.answer.map(i64::from))).unwrap();
    assert_eq!(ts(4, RoundUp), (RoundedUp { below: None, above: 0 }, Some(-30)));
    assert_eq!(ts(5, RoundUp), (Exact { position: 0 }, Some(-30)));
    assert_eq!(ts(6, RoundUp), (RoundedUp { below: Some(1), above: 2 }, Some(-20)));
    assert_eq!(ts(7, RoundUp), (Exact { position: 2 }, Some(-20)));
    assert_eq!(ts(9, RoundUp), (Exact { position: 4 }, Some(-20)));
    assert_eq!(ts(10, RoundUp), (AfterLast, None));
    assert_eq!(ts(4, RoundDown), (BeforeFirst, None));
    assert_eq!(ts(5, RoundDown), (Exact { position: 1 }, Some(-20)));
    assert_eq!(ts(8, RoundDown), (RoundedDown { below: 3, above: Some(4) }, Some(-20)));
    assert_eq!(ts(9, RoundDown), (Exact { position: 5 }, Some(40)));
    assert_eq!(ts(10, RoundDown), (RoundedDown { below: 5, above: None }, Some(40)));
    let seq = |sec: i64, opt| tracker.why_seq(sec, opt).map(|why| (why.reason, why.answer.map(u64::from))).unwrap();
    assert_eq!(seq(-31, RoundUp), (RoundedUp { below: None, above: 0 }, Some(5)));
    assert_eq!(seq(-30, RoundUp), (Exact { position: 0 }, Some(5)));
    assert_eq!(seq(-20, RoundUp), (Exact { position: 1 }, Some(5)));
    assert_eq!(seq(0, RoundUp), (RoundedUp { below: Some(4), above: 5 }, Some(9)));
    assert_eq!(seq(41, RoundUp), (AfterLast, None));
    assert_eq!(seq(-31, RoundDown), (BeforeFirst, None));
    assert_eq!(seq(-25, RoundDown), (RoundedDown { below: 0, above: Some(1) }, Some(5)));
    assert_eq!(seq(-20, RoundDown), (Exact { position: 4 }, Some(9)));
    assert_eq!(seq(41, RoundDown), (RoundedDown { below: 5, above: None }, Some(9)));
}

fn empty() {
    for tracker in [SequenceTracker::new(), table(0, 0, &[]), table(1, 60, &[])] {
        for opt in [RoundUp, RoundDown] {
            for seq in [0, 7, u64::MAX] {
                assert_eq!(tracker.why_ts(seq, opt), Ok(Why { reason: Empty, answer: None }));
            }
            for sec in [i64::MIN, -7, 0, i64::MAX] {
                assert_eq!(tracker.why_seq(sec, opt), Ok(Why { reason: Empty, answer: None }));
            }
        }
    }
}

const FIRST_SECOND: i64 = -62_135_596_800;
const LAST_SECOND: i64 = 253_402_300_799;

fn ends() {
    for pairs in [&[(0, FIRST_SECOND), (u64::MAX, LAST_SECOND)][..], &[(0, FIRST_SECOND)], &[(u64::MAX, LAST_SECOND)]] {
        let tracker = table(2, 0, pairs);
        let (seqs, secs): (Vec<u64>, Vec<i64>) = pairs.iter().copied().unzip();
        for seq in [0, 1, (1 << 63) - 1, 1 << 63, u64::MAX - 1, u64::MAX] {
            for sec in [i64::MIN, FIRST_SECOND - 1, FIRST_SECOND, -1, 0, LAST_SECOND, LAST_SECOND + 1, i64::MAX] {
                ask(&mut Seen::new(), &tracker, (&seqs, &secs), seq, sec);
            }
        }
    }
    let tracker = table(2, 0, &[(0, FIRST_SECOND), (u64::MAX, LAST_SECOND)]);
    assert_eq!(tracker.why_ts(u64::MAX, RoundUp).unwrap().reason, Exact { position: 1 });
    assert_eq!(tracker.why_seq(i64::MIN, RoundDown).unwrap().reason, BeforeFirst);
    assert_eq!(tracker.why_seq(i64::MAX, RoundDown).unwrap().reason, RoundedDown { below: 1, above: None });
}

fn full() {
    let rising = with(&(0..8192).map(|i| TrackedSeq::from((3 * i + 1, 5 * i as i64 - 20_000))).collect::<Vec<_>>());
    let ts = |seq: u64, opt| rising.why_ts(seq, opt).unwrap().reason;
    assert_eq!((ts(0, RoundUp), ts(0, RoundDown)), (RoundedUp { below: None, above: 0 }, BeforeFirst));
    assert_eq!((ts(1, RoundUp), ts(1, RoundDown)), (Exact { position: 0 }, Exact { position: 0 }));
    assert_eq!(
        (ts(24_573, RoundUp), ts(24_573, RoundDown)),
        (RoundedUp { below: Some(8190), above: 8191 }, RoundedDown { below: 8190, above: Some(8191) })
    );
    assert_eq!((ts(24_574, RoundUp), ts(24_574, RoundDown)), (Exact { position: 8191 }, Exact { position: 8191 }));
    assert_eq!((ts(24_575, RoundUp), ts(24_575, RoundDown)), (AfterLast, RoundedDown { below: 8191, above: None }));
    let equal = with(&[TrackedSeq::from((7, -3)); 8192]);
    assert_eq!([RoundUp, RoundDown].map(|opt| equal.why_ts(7, opt).unwrap().reason), [Exact { position: 0 }, Exact { position: 8191 }]);
    assert_eq!([RoundUp, RoundDown].map(|opt| equal.why_seq(-3, opt).unwrap().reason), [Exact { position: 0 }, Exact { position: 8191 }]);
    assert_eq!([RoundUp, RoundDown].map(|opt| equal.why_ts(8, opt).unwrap().reason), [AfterLast, RoundedDown { below: 8191, above: None }]);
    assert_eq!([RoundUp, RoundDown].map(|opt| equal.why_seq(-4, opt).unwrap().reason), [RoundedUp { below: None, above: 0 }, BeforeFirst]);
}

fn random() {
    let (mut seen, mut chance) = (Seen::new(), Chance(0x0BAD_5EED));
    for i in 0..400 {
        let n = i % 40;
        let tracker = with(&pairs_of(&mut chance, n));
        ask_about(&mut seen, &mut chance, &tracker, 40);
    }
    assert_eq!(seen.len(), KINDS, "{seen:?}");
    assert!(seen.values().all(|&times| times >= 100), "{seen:?}");
}

fn sizes() {
    let (mut seen, mut chance) = (Seen::new(), Chance(0x517E5));
    for n in [4094, 4095, 4096, 4097, 6144, 8190, 8191, 8192] {
        let pairs: Vec<TrackedSeq> = (0..n).map(|i: u64| TrackedSeq::from((10 + 2 * (i - i / 3), i as i64 / 2 * 3 - 6000))).collect();
        ask_about(&mut seen, &mut chance, &with(&pairs), 100);
    }
    assert_eq!(seen.len(), KINDS - 2, "all but those of an empty table: {seen:?}");
}

fn halved_and_restored() {
    let (mut seen, mut chance) = (Seen::new(), Chance(0xA1F));
    for capacity in [0, 1, 2, 3, 4, 7, 8, 64] {
        let mut tracker = table(capacity, 0, &[]);
        for _ in 0..6 {
            let last = tracker.pairs().last().map_or((0, 0), <(u64, i64)>::from);
            let offered: Vec<TrackedSeq> =
                pairs_of(&mut chance, 30).iter().map(|p| TrackedSeq::from((last.0 + p.seq.0, last.1 + p.ts.0 + 1010))).collect();
            // At an odd capacity the last recorded second may be above these, which then went back.
            tracker.insert_all(&offered).unwrap();
            ask_about(&mut seen, &mut chance, &tracker, 20);
            ask_about(&mut seen, &mut chance, &SequenceTracker::from_bytes(&tracker.to_bytes_strict().unwrap()).unwrap(), 20);
        }
        assert!(tracker.len() <= capacity.max(1) as usize);
    }
    assert_eq!(seen.len(), KINDS - 2, "all but those of an empty table: {seen:?}");
}

fn asked_by() {
    let tracker = table(8, 0, &[(5, -1), (6, 0), (7, 60)]);
    let due = Why { reason: Exact { position: 1 }, answer: Some(Second(0)) };
    assert_eq!((tracker.why_ts(6, RoundUp), tracker.why_ts(Seq(6), RoundUp)), (Ok(due), Ok(due)));
    let due = Why { reason: RoundedDown { below: 1, above: Some(2) }, answer: Some(Seq(6)) };
    assert_eq!((tracker.why_seq(59, RoundDown), tracker.why_seq(Second(59), RoundDown)), (Ok(due), Ok(due)));
    assert_eq!(tracker.why_seq("1970-01-01T00:00:59.5Z".parse::<Rfc3339>().unwrap(), RoundDown), Ok(due));
}

fn words() {
    let said = [
        (Exact { position: 0 }, "exact 0"),
        (Exact { position: 8191 }, "exact 8191"),
        (RoundedUp { below: Some(1), above: 2 }, "rounded-up 1 2"),
        (RoundedUp { below: None, above: 0 }, "rounded-up none 0"),
        (RoundedDown { below: 1, above: Some(2) }, "rounded-down 1 2"),
        (RoundedDown { below: 8191, above: None }, "rounded-down 8191 none"),
        (BeforeFirst, "before-first"),
        (AfterLast, "after-last"),
        (Empty, "empty"),
    ];
    for (reason, words) in said {
        assert_eq!(reason.to_string(), words);
    }
}

/// An answer that tells 9, and this reason, with both marks and positions.
fn told(reason: u32, a: u64, has_below: u32, has_above: u32) -> WhyAnswer {
    WhyAnswer { answer: Answer { a, b: 9, ..Answer::default() }, reason, has_below, has_above, position: 3, below: 4, above: 5 }
}

fn impossible() {
    assert_eq!(Reason::of(&told(1, 1, 0, 0)), Ok(Exact { position: 3 }));
    assert_eq!(Reason::of(&told(2, 1, 0, 1)), Ok(RoundedUp { below: None, above: 5 }));
    assert_eq!(Reason::of(&told(2, 1, 1, 1)), Ok(RoundedUp { below: Some(4), above: 5 }));
    assert_eq!(Reason::of(&told(3, 1, 1, 0)), Ok(RoundedDown { below: 4, above: None }));
    assert_eq!(Reason::of(&told(3, 1, 1, 1)), Ok(RoundedDown { below: 4, above: Some(5) }));
    assert_eq!([4, 5, 6].map(|reason| Reason::of(&told(reason, 0, 0, 0))), [Ok(BeforeFirst), Ok(AfterLast), Ok(Empty)]);
    // No reason, or one that is not on the list, whatever comes with it.
    for number in [0, 7, 8, u32::MAX] {
        for (a, has_below, has_above) in [(0, 0, 0), (1, 0, 0), (1, 1, 1)] {
            assert_eq!(Reason::of(&told(number, a, has_below, has_above)), Err(Error::Unlisted { number }));
        }
    }
    // A pair that answers where none should, none where one should, and a neighbour that is not there or should not be.
    let unfit = [
        (1, 0, 0, 0),
        (1, 1, 1, 0),
        (2, 0, 0, 1),
        (2, 1, 1, 0),
        (2, 1, 1, 2),
        (3, 0, 1, 0),
        (3, 1, 0, 1),
        (4, 1, 0, 0),
        (5, 1, 0, 0),
        (6, 1, 0, 0),
        (6, 0, 0, 1),
    ];
    for (number, a, has_below, has_above) in unfit {
        assert_eq!(Reason::of(&told(number, a, has_below, has_above)), Err(Error::Unlisted { number }), "{number}, {a}, {has_below}, {has_above}");
    }
    // A refusal is told as such, whatever stands beside it.
    for reason in [0, 1, 7] {
        let refused = WhyAnswer { answer: Answer { number: 12, a: 1, ..Answer::default() }, ..told(reason, 1, 0, 0) };
        assert_eq!(Reason::of(&refused), Err(Error::SecondDrops { index: 1 }));
    }
}

/// A table as the library has it: four pairs, of which two have one sequence and two one second, and a place that holds anything.
const SEQS: [u64; 5] = [5, 5, 7, 9, 1];
const SECS: [i64; 5] = [-10, 20, 20, 30, -99];
const GOOD: State =
    State { count: 4, capacity: 5, has_last: 1, interval_secs: 0, last: 30, totals: Totals { recorded: 4, went_back: 0, too_soon: 0, refused: 0 } };

fn ts(state: State, seqs: &[u64], secs: &[i64], seq: u64, round: u32) -> WhyAnswer {
    unsafe { sys::skut_why_ts(state, seqs.as_ptr(), seqs.len(), secs.as_ptr(), secs.len(), seq, round) }
}

fn seq(state: State, seqs: &[u64], secs: &[i64], sec: i64, round: u32) -> WhyAnswer {
    unsafe { sys::skut_why_seq(state, seqs.as_ptr(), seqs.len(), secs.as_ptr(), secs.len(), sec, round) }
}

/// What the library tells of a reason, with the answer 1 and this value where a pair answers.
fn as_told(reason: Reason, value: u64) -> WhyAnswer {
    let answer = Answer { a: 1, b: value, ..Answer::default() };
    let none = WhyAnswer::default();
    match reason {
        Exact { position } => WhyAnswer { answer, reason: 1, position, ..none },
        RoundedUp { below, above } => {
            WhyAnswer { answer, reason: 2, has_below: below.is_some().into(), has_above: 1, position: above, below: below.unwrap_or(0), above }
        }
        RoundedDown { below, above } => {
            WhyAnswer { answer, reason: 3, has_below: 1, has_above: above.is_some().into(), position: below, below, above: above.unwrap_or(0) }
        }
        BeforeFirst => WhyAnswer { reason: 4, ..none },
        AfterLast => WhyAnswer { reason: 5, ..none },
        Empty => WhyAnswer { reason: 6, ..none },
    }
}

fn raw_rounds() {
    for n in 0..=4 {
        let state = State { count: n, has_last: (n != 0).into(), ..GOOD };
        for (round, opt) in [(0, RoundUp), (1, RoundDown), (2, RoundDown), (1 << 31, RoundDown), (u32::MAX, RoundDown)] {
            for asked in [0, 1, 4, 5, 6, 7, 8, 9, 10, u64::MAX] {
                let reason = looked_at(&SEQS[..n], &asked, opt);
                let due = as_told(reason, answering(reason).map_or(0, |at| SECS[at] as u64));
                assert_eq!(ts(state, &SEQS, &SECS, asked, round), due, "sequence {asked}, round {round}, {n} pairs");
            }
            for asked in [i64::MIN, -99, -11, -10, -9, 0, 19, 20, 21, 30, 31, i64::MAX] {
                let reason = looked_at(&SECS[..n], &asked, opt);
                let due = as_told(reason, answering(reason).map_or(0, |at| SEQS[at]));
                assert_eq!(seq(state, &SEQS, &SECS, asked, round), due, "second {asked}, round {round}, {n} pairs");
            }
        }
    }
}

fn raw_bad() {
    let bad: [(State, &[u64], &[i64], u32, u64); 10] = [
        (State { has_last: 0, ..GOOD }, &SEQS, &SECS, 14, 0),
        (State { has_last: 2, ..GOOD }, &SEQS, &SECS, 14, 0),
        (State { has_last: u32::MAX, ..GOOD }, &SEQS, &SECS, 14, 0),
        (State { count: usize::MAX, ..GOOD }, &SEQS, &SECS, 14, 0),
        (State { totals: Totals { recorded: u64::MAX, refused: 1, ..GOOD.totals }, ..GOOD }, &SEQS, &SECS, 14, 0),
        (GOOD, &SEQS[..4], &SECS, 14, 0),
        (GOOD, &SEQS, &[], 14, 0),
        (GOOD, &[5, 6, 5, 9, 0], &SECS, 11, 2),
        (GOOD, &SEQS, &[10, 9, 20, 30, 0], 12, 1),
        (GOOD, &SEQS, &[i64::MIN, 9, 20, 30, 0], 13, 0),
    ];
    for (state, seqs, secs, number, a) in bad {
        let due = WhyAnswer { answer: Answer { number, a, ..Answer::default() }, ..WhyAnswer::default() };
        for round in [0, 1, 2, u32::MAX] {
            for asked in [0, 5, 6, u64::MAX] {
                assert_eq!(ts(state, seqs, secs, asked, round), due, "{state:?}");
            }
            for asked in [i64::MIN, 20, 25, i64::MAX] {
                assert_eq!(seq(state, seqs, secs, asked, round), due, "{state:?}");
            }
        }
        assert_eq!(Reason::of(&due).map_err(|refused| refused.number()), Err(number));
    }
}
