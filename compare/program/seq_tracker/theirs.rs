//! The Rust's side: its answers in the numbers of the list of refusals (docs/RULES.md), and what it does not tell: why an offer was skipped, and the totals.
use super::super::*;
use super::chance::{FIRST_SECOND, LAST_SECOND};
use super::ours::{Answer, Counts, State, TableAnswer, Totals, NO_OFFERS, NO_TOTALS, OK};
use super::stops;
use std::panic::{catch_unwind, AssertUnwindSafe};

/// slatedb's default interval: that of its `new()` and of every table that it restores. Ours is another, so our side names this one wherever it is
/// compared with slatedb's default.
pub const SLATEDB_INTERVAL_SECS: u64 = 60;

pub fn instant(sec: i64) -> DateTime<Utc> {
    DateTime::from_timestamp(sec, 0).expect("a second of chrono's range")
}

/// A table with these pairs, the last recorded second that of the last pair.
pub fn table(capacity: u32, interval_secs: u64, seqs: &[u64], secs: &[i64]) -> SequenceTracker {
    let mut t = SequenceTracker::with_config(capacity, interval_secs);
    t.sequence_numbers = seqs.to_vec();
    t.timestamps = secs.to_vec();
    t.last_recorded_ts = secs.last().copied();
    t
}

/// A table with another interval. The Rust restores at its default one only, so its field is set; it goes on at the new one.
pub fn at_interval(t: SequenceTracker, interval_secs: u64) -> SequenceTracker {
    SequenceTracker { interval_secs, ..t }
}

/// A table's state as ours is. The Rust has no totals.
pub fn state(t: &SequenceTracker) -> State {
    State {
        count: t.sequence_numbers.len(),
        capacity: t.capacity,
        has_last: t.last_recorded_ts.is_some() as u32,
        interval_secs: t.interval_secs,
        last: t.last_recorded_ts.unwrap_or(0),
        totals: NO_TOTALS,
    }
}

/// Our answer that gives a table, where nothing was offered.
pub fn given(t: &SequenceTracker) -> TableAnswer {
    TableAnswer { answer: OK, tally: NO_OFFERS, state: state(t) }
}

#[derive(Clone, Copy, Debug, PartialEq, Eq)]
pub enum Reason {
    WentBack,
    TooSoon,
}

/// Why a second is skipped, if it is. The Rust does not tell: this is the rule (docs/RULES.md), on the Rust's own last recorded second.
pub fn reason(t: &SequenceTracker, sec: i64) -> Option<Reason> {
    let last = t.last_recorded_ts?;
    if sec < last {
        return Some(Reason::WentBack);
    }
    let passed = sec as i128 - last as i128;
    (passed < t.interval_secs as i128).then_some(Reason::TooSoon)
}

#[derive(Clone, Copy, Debug, PartialEq, Eq)]
pub enum Offer {
    Recorded,
    Skipped(Reason),
    /// with this number, 16 or 17
    Refused(u32),
}

impl Offer {
    /// The tally with one offer more; a refused one is in none of its numbers.
    pub fn counted(self, so_far: Counts) -> Counts {
        match self {
            Offer::Recorded => Counts { recorded: so_far.recorded + 1, ..so_far },
            Offer::Skipped(Reason::WentBack) => Counts { went_back: so_far.went_back + 1, ..so_far },
            Offer::Skipped(Reason::TooSoon) => Counts { too_soon: so_far.too_soon + 1, ..so_far },
            Offer::Refused(_) => so_far,
        }
    }

    /// The totals with one offer more; a refused one is in the last of them.
    pub fn totalled(self, so_far: Totals) -> Totals {
        match self {
            Offer::Recorded => Totals { recorded: so_far.recorded + 1, ..so_far },
            Offer::Skipped(Reason::WentBack) => Totals { went_back: so_far.went_back + 1, ..so_far },
            Offer::Skipped(Reason::TooSoon) => Totals { too_soon: so_far.too_soon + 1, ..so_far },
            Offer::Refused(_) => Totals { refused: so_far.refused + 1, ..so_far },
        }
    }
}

/// How many offers these totals count, in a number that holds the sum of any four.
pub fn sum(totals: Totals) -> u128 {
    [totals.recorded, totals.went_back, totals.too_soon, totals.refused].map(u128::from).iter().sum()
}

/// Whether one more offer would pass 2^64-1: 31 is due.
pub fn full(totals: Totals) -> bool {
    sum(totals) + 1 > u64::MAX.into()
}

/// What the Rust makes of an offer. Where it skips, the reason is added; it has to skip exactly where there is one. A second out of domain it takes: that one is not
/// offered to it, as 16 refuses it, by the rule.
pub fn offer(t: &mut SequenceTracker, seq: u64, sec: i64) -> Offer {
    if !(FIRST_SECOND..=LAST_SECOND).contains(&sec) {
        return Offer::Refused(16);
    }
    let (why, last, interval) = (reason(t, sec), t.last_recorded_ts, t.interval_secs);
    match (recorded(t, seq, sec), why) {
        (Some(true), None) => Offer::Recorded,
        (Some(false), Some(why)) => Offer::Skipped(why),
        (None, None) => Offer::Refused(17),
        (Some(false), None) => panic!("the Rust skips ({seq}, {sec}), which neither went back nor comes too soon: last recorded {last:?}, interval {interval}"),
        (_, Some(why)) => panic!("the Rust does not skip ({seq}, {sec}), by the rules {why:?}: last recorded {last:?}, interval {interval}"),
    }
}

/// `insert`: whether it recorded, and nothing where it refused. It answers nothing, and a recorded pair need not show (capacity 0
/// and the same pair again), so the outcome is read off the same `insert` on a copy of the last pair that is not thinned.
fn recorded(t: &mut SequenceTracker, seq: u64, sec: i64) -> Option<bool> {
    let pair = TrackedSeq { seq, ts: instant(sec) };
    let mut probe = SequenceTracker {
        sequence_numbers: t.sequence_numbers.last().copied().into_iter().collect(),
        timestamps: t.timestamps.last().copied().into_iter().collect(),
        capacity: 8,
        interval_secs: t.interval_secs,
        last_recorded_ts: t.last_recorded_ts,
    };
    let stood = probe.sequence_numbers.len();
    if catch_unwind(AssertUnwindSafe(|| probe.insert(pair))).is_err() {
        let refused = catch_unwind(AssertUnwindSafe(|| t.insert(pair)));
        assert!(refused.is_err());
        return None;
    }
    t.insert(pair);
    Some(probe.sequence_numbers.len() > stood)
}

/// `extend_from`: whether it came to its end.
pub fn extend_from(t: &mut SequenceTracker, other: &SequenceTracker) -> bool {
    catch_unwind(AssertUnwindSafe(|| t.extend_from(other))).is_ok()
}

/// The table that an image is read as, or the refusal in full.
pub fn read(bytes: &[u8]) -> Result<SequenceTracker, Answer> {
    SequenceTracker::from_bytes(bytes).map_err(|words| match refusal(&words) {
        said if (4..=8).contains(&said.number) => stops::located(bytes, &words, said),
        said => said,
    })
}

/// A reader's refusal as its words tell it: its number, the byte of 2, the width of 8, the array of 9.
fn refusal(words: &str) -> Answer {
    let refused = |number| Answer { number, ..OK };
    let number = |before: &str, after: &str| -> Option<u64> { words.strip_prefix(before)?.strip_suffix(after)?.parse().ok() };
    match words {
        "Empty buffer" => refused(1),
        "Buffer too small for length" => refused(3),
        "Expected count first" => refused(4),
        "Unexpected EOF: first value should be 64 bit" => refused(5),
        "Unexpected EOF reading prefix" => refused(6),
        "Unexpected EOF decoding Gorilla prefix" => refused(7),
        _ => {
            if let Some(byte) = number("Unsupported version: ", "") {
                Answer { a: byte, ..refused(2) }
            } else if let Some(width) = number("Unexpected EOF reading ", "-bit delta-of-delta") {
                Answer { c: width, ..refused(8) }
            } else if words.contains("sequence numbers, got") {
                refused(9)
            } else if words.contains("timestamps, got") {
                Answer { a: 1, ..refused(9) }
            } else {
                panic!("the Rust says something that the list of refusals does not have: {words}")
            }
        }
    }
}

/// The image's length: the header, and as many bytes as the Rust's reader takes for each array.
pub fn image_len(bytes: &[u8]) -> usize {
    let (seqs, _) = decode_sequence_numbers_with_length(&bytes[5..]).expect("a good image");
    let (secs, _) = decode_gorilla_i64_with_length(&bytes[5 + seqs..]).expect("a good image");
    5 + seqs + secs
}

/// The last number that something holds of, of those from one that it holds of to one that it does not hold of.
pub fn last_that(mut holds: usize, mut fails: usize, what: impl Fn(usize) -> bool) -> usize {
    while fails - holds > 1 {
        let middle = holds + (fails - holds) / 2;
        if what(middle) {
            holds = middle
        } else {
            fails = middle
        }
    }
    holds
}

/// Whether the Rust reads one array back as it was.
pub fn reads_back(values: &[i64]) -> bool {
    matches!(decode_gorilla_i64_with_length(&encode_gorilla_i64(values)), Ok((_, read)) if read == values)
}
