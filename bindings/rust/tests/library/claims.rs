//! What the docs claim of storage and show of many questions and of reasons, and where the claims end.
use crate::run::Case;
use crate::tables::{but_totals, kept, pair, table};
use skutlaneb::FindOption::{RoundDown, RoundUp};
use skutlaneb::Inserted::{Recorded, TooSoon, WentBack};
use skutlaneb::{sys, Error, Reason, Second, Seq, SequenceTracker, Totals, TrackedSeq, TsSheet, Why};

pub const CASES: &[Case] = &[
    ("at the default settings a strictly saved table comes back as it was but for its totals, also once it has dropped pairs", comes_back),
    ("at any interval it does where the restore names the table's own", own_interval),
    ("restored at another interval it has the same pairs, and may record what was skipped, or skip what was recorded", other_interval),
    ("at another capacity a strictly saved table comes back with other settings and another last recorded second", other_settings),
    ("a table that is not strict, saved plainly, comes back as another one", not_strict),
    ("a state that no call returned, saved strictly, comes back with its last kept second", no_calls_state),
    ("of an image of two pairs, with each bit another: 133 refused, 11 the same, 120 other tables", flipped_33),
    ("of an image of sixteen pairs, with each bit another: 182 refused, 5 the same, 365 other tables", flipped_69),
    ("a changed byte reads as another table", other_pairs),
    ("a clone is the table with its last recorded second and its totals, in arrays of its own", clones),
    ("equal tables may answer the same offer differently", equal_but_other),
    ("questions asked at once are answered as the docs show", at_once),
    ("why an answer is what it is, is told as the docs show", why),
];

/// 8,200 offers, each as soon after the one before as the table's interval lets it, with a save and a restore before, at and after the halving.
fn past_halving(mut tracker: SequenceTracker, restore: impl Fn(&[u8]) -> Result<SequenceTracker, Error>) {
    let step = tracker.interval_secs() as i64;
    let offers: Vec<TrackedSeq> = (0..8200).map(|i| pair(64 * i, step * i as i64)).collect();
    for some in [&offers[..8192], &offers[8192..8193], &offers[8193..]] {
        tracker.insert_all(some).unwrap();
        let back = restore(&tracker.to_bytes_strict().unwrap()).unwrap();
        assert_eq!(but_totals(&back), but_totals(&tracker));
        let recorded = some.len() as u64;
        assert_eq!((tracker.totals(), back.totals()), (Totals { recorded, ..Totals::default() }, Totals::default()));
        tracker = back;
    }
    assert_eq!((tracker.len(), tracker.last_recorded()), (4104, Some(Second(step * 8199))));
}

fn comes_back() {
    past_halving(SequenceTracker::new(), SequenceTracker::from_bytes);
}

fn own_interval() {
    for interval_secs in [0, 1, 10, 60] {
        past_halving(table(8192, interval_secs, &[]), |bytes| SequenceTracker::from_bytes_with_interval(bytes, interval_secs));
    }
    // At the greatest interval nothing is recorded after the first pair.
    let longest = table(8192, (1 << 63) - 1, &[(5, -100)]);
    let back = SequenceTracker::from_bytes_with_interval(&longest.to_bytes_strict().unwrap(), (1 << 63) - 1).unwrap();
    assert_eq!(but_totals(&back), but_totals(&longest));
}

fn other_interval() {
    let mut saved = table(8192, 60, &[(5, 100)]);
    let bytes = saved.to_bytes_strict().unwrap();
    let mut own = SequenceTracker::from_bytes_with_interval(&bytes, 60).unwrap();
    let mut other = SequenceTracker::from_bytes(&bytes).unwrap();
    assert_eq!((own == saved, own.last_recorded()), (true, saved.last_recorded()));
    assert_eq!((kept(&other), other.last_recorded(), other.interval_secs()), (vec![(5, 100)], Some(Second(100)), 10));
    assert_ne!(other, saved);
    assert_eq!([&mut saved, &mut own, &mut other].map(|to| to.insert(pair(6, 110)).unwrap()), [TooSoon, TooSoon, Recorded]);

    let mut saved = table(8192, 10, &[(5, 100)]);
    let mut other = SequenceTracker::from_bytes_with_interval(&saved.to_bytes_strict().unwrap(), 60).unwrap();
    assert_eq!((saved.insert(pair(6, 110)), other.insert(pair(6, 110))), (Ok(Recorded), Ok(TooSoon)));
    for interval_secs in [0, 11, 60, 61] {
        let back = SequenceTracker::from_bytes(&table(8192, interval_secs, &[]).to_bytes_strict().unwrap()).unwrap();
        assert_eq!(back.interval_secs(), 10);
    }
}

fn other_settings() {
    let saved = table(3, 0, &[(1, 10), (2, 20), (3, 30), (4, 40)]);
    assert_eq!((kept(&saved), saved.last_recorded()), (vec![(1, 10), (3, 30)], Some(Second(40))));
    let bytes = saved.to_bytes_strict().unwrap();
    for (back, interval_secs) in [(SequenceTracker::from_bytes(&bytes), 10), (SequenceTracker::from_bytes_with_interval(&bytes, 0), 0)] {
        let back = back.unwrap();
        assert_eq!((kept(&back), back.last_recorded()), (vec![(1, 10), (3, 30)], Some(Second(30))));
        assert_eq!((back.capacity(), back.interval_secs()), (8192, interval_secs));
    }
}

fn not_strict() {
    let saved = table(8192, 60, &[(0, 0), (1 << 33, 60)]);
    let back = SequenceTracker::from_bytes(&saved.to_bytes().unwrap()).unwrap();
    assert_eq!(kept(&back), [(0, 0), (0, 60)]);
    assert_eq!(saved.to_bytes_strict().map_err(|refused| refused.number()), Err(20));
    let least = table(8192, 60, &[(0, 0), (1 << 31, 60)]);
    let back = SequenceTracker::from_bytes(&least.to_bytes().unwrap()).unwrap();
    assert_eq!(kept(&back), [(0, 0), (u64::MAX - (1 << 31) + 1, 60)]);
    assert!(table(8192, 60, &[(0, 0), ((1 << 31) - 1, 60)]).to_bytes_strict().is_ok());
}

fn no_calls_state() {
    let (mut seqs, mut secs, mut out) = (vec![0; 8192], vec![0; 8192], [0; 30]);
    (seqs[0], secs[0]) = (1, 10);
    let (s, z, bytes) = (seqs.as_mut_ptr(), secs.as_mut_ptr(), out.as_mut_ptr());
    let totals = sys::Totals { recorded: 1, went_back: 2, too_soon: 3, refused: 4 };
    for interval_secs in [10, 60] {
        let state = sys::State { count: 1, capacity: 8192, has_last: 1, interval_secs, last: 20, totals };
        unsafe {
            assert_eq!(sys::skut_check(state, s, 8192, z, 8192).number, 0);
            let saved = sys::skut_save_strict(state, s, 8192, z, 8192, bytes, 30);
            assert_eq!((saved.number, saved.a), (0, 29));
            let restored = sys::State { last: 10, totals: sys::Totals::default(), ..state };
            let back = sys::skut_restore(bytes, 29, s, 8192, z, 8192);
            assert_eq!((back.answer.number, back.state), (0, sys::State { interval_secs: 10, ..restored }));
            let back = sys::skut_restore_with_interval(bytes, 29, s, 8192, z, 8192, interval_secs);
            assert_eq!((back.answer.number, back.state), (0, restored));
        }
    }
}

/// Of the images that differ in one bit from that of these pairs, how many are refused, read as the same table, and read as another one. It is the same at the
/// default interval by the plain restore, and at another one by the restore that names it.
fn flipped(pairs: &[(u64, i64)], bytes: usize) -> (usize, usize, usize) {
    let counted = flipped_at(&table(8192, 10, pairs), bytes, SequenceTracker::from_bytes);
    assert_eq!(flipped_at(&table(8192, 60, pairs), bytes, |image| SequenceTracker::from_bytes_with_interval(image, 60)), counted);
    counted
}

fn flipped_at(tracker: &SequenceTracker, bytes: usize, restore: fn(&[u8]) -> Result<SequenceTracker, Error>) -> (usize, usize, usize) {
    let mut image = tracker.to_bytes_strict().unwrap();
    assert_eq!(image.len(), bytes);
    let (mut refused, mut same, mut other) = (0, 0, 0);
    for bit in 0..8 * bytes {
        image[bit / 8] ^= 1 << (bit % 8);
        match restore(&image) {
            Err(_) => refused += 1,
            Ok(read) if read == *tracker && read.last_recorded() == tracker.last_recorded() => same += 1,
            Ok(_) => other += 1,
        }
        image[bit / 8] ^= 1 << (bit % 8);
    }
    (refused, same, other)
}

fn flipped_33() {
    assert_eq!(flipped(&[(100, 0), (164, 60)], 33), (133, 11, 120));
}

fn flipped_69() {
    let pairs: Vec<(u64, i64)> = (0..16).map(|i| (100 + 100 * i * i, (60 * i + i * i) as i64)).collect();
    assert_eq!(flipped(&pairs, 69), (182, 5, 365));
}

fn other_pairs() {
    let mut bytes = table(8192, 60, &[(100, 0), (164, 60)]).to_bytes_strict().unwrap();
    bytes[16] ^= 1;
    assert_eq!(SequenceTracker::from_bytes(&bytes).map(|read| kept(&read)), Ok(vec![(101, 0), (165, 60)]));
}

fn clones() {
    let tracker = table(3, 0, &[(1, 10), (2, 20), (3, 30), (4, 40)]);
    let mut clone = tracker.clone();
    assert_eq!(format!("{clone:?}"), format!("{tracker:?}"));
    assert_eq!((but_totals(&clone), clone.totals()), (but_totals(&tracker), tracker.totals()));
    assert_eq!(clone.insert(pair(5, 50)), Ok(Recorded));
    assert_eq!((kept(&tracker), tracker.last_recorded()), (vec![(1, 10), (3, 30)], Some(Second(40))));
    assert_eq!((tracker.totals().recorded, clone.totals().recorded), (4, 5));
}

fn equal_but_other() {
    let mut one = table(3, 0, &[(1, 10), (2, 20), (3, 30), (4, 40)]);
    let mut other = table(3, 0, &[(1, 10), (3, 30)]);
    assert_eq!(one, other);
    assert_eq!((one.insert(pair(5, 35)), other.insert(pair(5, 35))), (Ok(WentBack), Ok(Recorded)));
}

fn at_once() {
    let tracker = table(8192, 10, &[(100, 0), (164, 60)]);
    let sheet = tracker.find_ts_16(TsSheet::of(&[Seq(163), Seq(164), Seq(99)]).unwrap(), RoundDown).unwrap();
    assert_eq!(sheet.answers[..sheet.used], [Some(Second(0)), Some(Second(60)), None]);
    let seconds = tracker.find_ts_each(&[Seq(99), Seq(101), Seq(165)], RoundUp).unwrap();
    assert_eq!(seconds, [Some(Second(0)), Some(Second(60)), None]);
}

fn why() {
    let tracker = table(8192, 10, &[(100, 0), (164, 60)]);
    let why = tracker.why_ts(150, RoundDown).unwrap();
    assert_eq!(why, Why { reason: Reason::RoundedDown { below: 0, above: Some(1) }, answer: Some(Second(0)) });
    assert_eq!(why.reason.to_string(), "rounded-down 0 1");
    assert_eq!(tracker.why_ts(164, RoundDown).unwrap().reason, Reason::Exact { position: 1 });
    assert_eq!(tracker.why_ts(99, RoundDown), Ok(Why { reason: Reason::BeforeFirst, answer: None }));
    assert_eq!(tracker.why_ts(165, RoundUp), Ok(Why { reason: Reason::AfterLast, answer: None }));
}
