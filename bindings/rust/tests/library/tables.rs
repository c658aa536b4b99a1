//! Settings, offers and lookups.
use crate::run::Case;
use skutlaneb::FindOption::{RoundDown, RoundUp};
use skutlaneb::{Error, Inserted, Second, Seq, SequenceTracker, Totals, TrackedSeq};

pub const CASES: &[Case] = &[
    ("a new table has the default settings and no pair", new),
    ("settings at their limits are taken, beyond them refused by 15", settings),
    ("five pairs at capacity 4 become three", capacity_4),
    ("odd capacity drops the newest pair and keeps its second", capacity_3),
    ("capacity 0 keeps one pair", capacity_0),
    ("8,193 pairs become 4,097", halving),
    ("pairs that went back, or came before the interval had passed, are skipped", interval),
    ("lookups take the equal key, or round", lookups),
    ("among equal keys the first answers up, the last down", equal_keys),
    ("the greatest and the least key that can be asked for", ends),
    ("an empty table answers nothing", nothing),
    ("a second outside the years 0001 to 9999 is refused by 16", outside),
    ("a sequence below the last kept one is refused by 17", drops),
    ("equality is by pairs and settings, as in slatedb", equality),
];

pub fn pair(seq: u64, sec: i64) -> TrackedSeq {
    TrackedSeq { seq: Seq(seq), ts: Second(sec) }
}

pub fn kept(tracker: &SequenceTracker) -> Vec<(u64, i64)> {
    tracker.pairs().map(|pair| (pair.seq.0, pair.ts.0)).collect()
}

/// All of a table but its totals: the pairs, the settings, the last recorded second.
pub fn but_totals(tracker: &SequenceTracker) -> (Vec<(u64, i64)>, u32, u64, Option<Second>) {
    (kept(tracker), tracker.capacity(), tracker.interval_secs(), tracker.last_recorded())
}

/// A table of these settings after these pairs, each of which is recorded.
pub fn table(capacity: u32, interval_secs: u64, pairs: &[(u64, i64)]) -> SequenceTracker {
    let mut tracker = SequenceTracker::with_config(capacity, interval_secs).unwrap();
    for &(seq, sec) in pairs {
        assert_eq!(tracker.insert(pair(seq, sec)), Ok(Inserted::Recorded));
    }
    tracker
}

fn new() {
    let tracker = SequenceTracker::new();
    assert!(tracker.is_empty());
    assert_eq!((tracker.capacity(), tracker.interval_secs(), tracker.last_recorded()), (8192, 10, None));
    assert_eq!(tracker, SequenceTracker::default());
    assert_eq!(tracker, table(8192, 10, &[]));
}

fn settings() {
    let most = SequenceTracker::with_config(8192, (1 << 63) - 1).unwrap();
    assert_eq!((most.capacity(), most.interval_secs()), (8192, (1 << 63) - 1));
    assert_eq!(SequenceTracker::with_config(8193, 60).err(), Some(Error::Settings));
    assert_eq!(SequenceTracker::with_config(1, 1 << 63).err(), Some(Error::Settings));
}

fn capacity_4() {
    let tracker = table(4, 0, &[(1, 10), (2, 20), (3, 30), (4, 40), (5, 50)]);
    assert_eq!(kept(&tracker), [(1, 10), (3, 30), (5, 50)]);
}

fn capacity_3() {
    let full = table(3, 0, &[(1, 10), (2, 20), (3, 30), (4, 40)]);
    assert_eq!(kept(&full), [(1, 10), (3, 30)]);
    assert_eq!(full.last_recorded(), Some(Second(40)));
    assert_eq!(full.clone().insert(pair(3, 45)), Ok(Inserted::Recorded));
    assert_eq!(full.clone().insert(pair(9, 39)), Ok(Inserted::WentBack));
}

fn capacity_0() {
    let tracker = table(0, 0, &[(1, 10), (2, 20)]);
    assert_eq!(kept(&tracker), [(1, 10)]);
    assert_eq!(tracker.last_recorded(), Some(Second(20)));
}

fn halving() {
    let mut tracker = SequenceTracker::with_config(8192, 0).unwrap();
    for i in 0..8192 {
        tracker.insert(pair(i, i as i64)).unwrap();
    }
    assert_eq!(tracker.len(), 8192);
    tracker.insert(pair(8192, 8192)).unwrap();
    assert!(kept(&tracker).into_iter().eq((0..4097).map(|i| (2 * i, 2 * i as i64))));
}

fn interval() {
    let mut tracker = table(8, 60, &[(1, 100)]);
    for (second, skipped) in [(159, Inserted::TooSoon), (99, Inserted::WentBack)] {
        assert_eq!(tracker.insert(pair(2, second)), Ok(skipped));
        assert_eq!(kept(&tracker), [(1, 100)]);
    }
    assert_eq!(tracker.insert(pair(2, 160)), Ok(Inserted::Recorded));
    assert_eq!(kept(&tracker), [(1, 100), (2, 160)]);
}

fn lookups() {
    let tracker = table(4, 0, &[(1, 10), (2, 20), (3, 30), (4, 40), (5, 50)]);
    assert_eq!(tracker.find_ts(2, RoundUp), Ok(Some(Second(30))));
    assert_eq!(tracker.find_ts(2, RoundDown), Ok(Some(Second(10))));
    assert_eq!(tracker.find_ts(Seq(3), RoundUp), Ok(Some(Second(30))));
    assert_eq!(tracker.find_ts(6, RoundUp), Ok(None));
    assert_eq!(tracker.find_ts(0, RoundDown), Ok(None));
    assert_eq!(tracker.find_seq(29, RoundUp), Ok(Some(Seq(3))));
    assert_eq!(tracker.find_seq(29, RoundDown), Ok(Some(Seq(1))));
    assert_eq!(tracker.find_seq(Second(50), RoundDown), Ok(Some(Seq(5))));
    assert_eq!(tracker.find_seq(51, RoundUp), Ok(None));
    assert_eq!(tracker.find_seq(i64::MIN, RoundDown), Ok(None));
}

fn equal_keys() {
    let tracker = table(8, 0, &[(7, -5), (7, 10), (7, 10), (9, 10)]);
    assert_eq!(tracker.find_ts(7, RoundUp), Ok(Some(Second(-5))));
    assert_eq!(tracker.find_ts(7, RoundDown), Ok(Some(Second(10))));
    assert_eq!(tracker.find_seq(10, RoundUp), Ok(Some(Seq(7))));
    assert_eq!(tracker.find_seq(10, RoundDown), Ok(Some(Seq(9))));
    // Equal keys at the first and at the last position, and nothing else.
    let tracker = table(8, 0, &[(4, 10), (4, 20), (4, 30)]);
    for (asked, up, down) in [(3, Some(10), None), (4, Some(10), Some(30)), (5, None, Some(30))] {
        assert_eq!(tracker.find_ts(asked, RoundUp), Ok(up.map(Second)));
        assert_eq!(tracker.find_ts(asked, RoundDown), Ok(down.map(Second)));
    }
    let tracker = table(8, 0, &[(1, 6), (2, 6), (3, 6)]);
    for (asked, up, down) in [(5, Some(1), None), (6, Some(1), Some(3)), (7, None, Some(3))] {
        assert_eq!(tracker.find_seq(asked, RoundUp), Ok(up.map(Seq)));
        assert_eq!(tracker.find_seq(asked, RoundDown), Ok(down.map(Seq)));
    }
}

fn ends() {
    let tracker = table(8, 0, &[(0, 10), (0, 20), (u64::MAX, 30), (u64::MAX, 40)]);
    assert_eq!(tracker.find_ts(0, RoundUp), Ok(Some(Second(10))));
    assert_eq!(tracker.find_ts(0, RoundDown), Ok(Some(Second(20))));
    assert_eq!(tracker.find_ts(u64::MAX, RoundUp), Ok(Some(Second(30))));
    assert_eq!(tracker.find_ts(u64::MAX, RoundDown), Ok(Some(Second(40))));
    assert_eq!(tracker.find_ts(u64::MAX - 1, RoundUp), Ok(Some(Second(30))));
    assert_eq!(tracker.find_ts(u64::MAX - 1, RoundDown), Ok(Some(Second(20))));
    for second in [i64::MAX, i64::MAX - 1] {
        assert_eq!(tracker.find_seq(second, RoundUp), Ok(None));
        assert_eq!(tracker.find_seq(second, RoundDown), Ok(Some(Seq(u64::MAX))));
    }
    for second in [i64::MIN, i64::MIN + 1, -1] {
        assert_eq!(tracker.find_seq(second, RoundUp), Ok(Some(Seq(0))));
        assert_eq!(tracker.find_seq(second, RoundDown), Ok(None));
    }
}

fn nothing() {
    let tracker = SequenceTracker::new();
    for opt in [RoundUp, RoundDown] {
        assert_eq!(tracker.find_ts(5, opt), Ok(None));
        assert_eq!(tracker.find_seq(5, opt), Ok(None));
    }
}

fn outside() {
    let mut tracker = table(4, 0, &[(0, -62_135_596_800), (u64::MAX, 253_402_300_799)]);
    let before = but_totals(&tracker);
    for second in [-62_135_596_801, 253_402_300_800, i64::MIN, i64::MAX] {
        assert_eq!(tracker.insert(pair(u64::MAX, second)), Err(Error::OfferedOutside));
    }
    assert_eq!((but_totals(&tracker), tracker.totals()), (before, Totals { recorded: 2, refused: 4, ..Totals::default() }));
}

fn drops() {
    // Sequences are unsigned: the greatest is not below the smallest.
    let mut tracker = table(4, 0, &[(5, 10), (1 << 63, 20)]);
    let before = but_totals(&tracker);
    assert_eq!(tracker.insert(pair((1 << 63) - 1, 30)), Err(Error::OfferedDrops));
    assert_eq!((but_totals(&tracker), tracker.totals()), (before, Totals { recorded: 2, refused: 1, ..Totals::default() }));
    assert_eq!(tracker.insert(pair(1 << 63, 30)), Ok(Inserted::Recorded));
}

fn equality() {
    let one = table(3, 0, &[(1, 10), (2, 20), (3, 30), (4, 40)]);
    let other = table(3, 0, &[(1, 10), (3, 30)]);
    assert_ne!(one.last_recorded(), other.last_recorded());
    assert_ne!(one.totals(), other.totals());
    assert_eq!(one, other);
    assert_ne!(one, table(3, 1, &[(1, 10), (3, 30)]));
    assert_ne!(one, table(4, 0, &[(1, 10), (3, 30)]));
    assert_ne!(one, table(3, 0, &[(1, 10), (3, 31)]));
    fn is_eq<T: Eq>(_: &T) {}
    is_eq(&one);
}
