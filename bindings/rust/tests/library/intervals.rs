//! A restore at a named interval, as the library's function is: what it gives and what refuses it, and in which order.
use crate::run::Case;
use crate::tables::{kept, pair, table};
use skutlaneb::image::encode_pairs;
use skutlaneb::sys::{self, Answer, State, TableAnswer, Tally, Totals};
use skutlaneb::Inserted::{Recorded, TooSoon, WentBack};
use skutlaneb::{Error, SequenceTracker, TrackedSeq};

pub const CASES: &[Case] = &[
    ("restored at a named interval, a table is as by the plain restore but for the interval", as_plain),
    ("an interval above 2^63-1 is refused by 15, before the arrays and the bytes", too_long),
    ("arrays of 8,191 places are refused by 14, before the bytes, at any interval", no_room),
    ("each refusal of bytes, from 1 to 13, is that of the plain restore, with its place", refused),
    ("what is offered next goes by the interval that was named", next_offers),
];

/// The least and the greatest, the default one, slatedb's, and the least by which an offer comes too soon.
pub const INTERVALS: [u64; 5] = [0, (1 << 63) - 1, 10, 60, 1];
const TOO_LONG: [u64; 2] = [1 << 63, u64::MAX];

/// What is answered, and the arrays afterwards.
type Told = (TableAnswer, Vec<u64>, Vec<i64>);

/// A call on bytes and two arrays of so many places, each of which holds 7: by the plain restore, or by the one that names an interval.
fn told(interval_secs: Option<u64>, bytes: &[u8], n: usize, m: usize) -> Told {
    let (mut seqs, mut secs) = (vec![7; n], vec![7; m]);
    let (b, k, s, z) = (bytes.as_ptr(), bytes.len(), seqs.as_mut_ptr(), secs.as_mut_ptr());
    let answer = match interval_secs {
        None => unsafe { sys::skut_restore(b, k, s, n, z, m) },
        Some(interval_secs) => unsafe { sys::skut_restore_with_interval(b, k, s, n, z, m, interval_secs) },
    };
    (answer, seqs, secs)
}

/// A refusal: with the state that every call refuses, and the arrays as they were.
fn refusal(answer: Answer, n: usize, m: usize) -> Told {
    let state = unsafe { sys::skut_with_config(8193, 0) }.state;
    (TableAnswer { answer, tally: Tally::default(), state }, vec![7; n], vec![7; m])
}

fn image_of(pairs: impl IntoIterator<Item = (u64, i64)>) -> Vec<u8> {
    encode_pairs(&pairs.into_iter().map(TrackedSeq::from).collect::<Vec<_>>()).unwrap()
}

fn as_plain() {
    let most: Vec<(u64, i64)> = (0..8192).map(|i| (i * i % 5 + 10 * i, (i - i % 3) as i64)).collect();
    for pairs in [&[][..], &[(5, -100)], &[(100, 0), (164, 60)], &most] {
        let (image, count) = (image_of(pairs.iter().copied()), pairs.len());
        let last = pairs.last().map_or(0, |pair| pair.1);
        let state = State { count, capacity: 8192, has_last: u32::from(count > 0), interval_secs: 10, last, totals: Totals::default() };
        let (answer, seqs, secs) = told(None, &image, 8195, 8192);
        assert_eq!(answer, TableAnswer { answer: Answer::default(), tally: Tally::default(), state });
        assert!(seqs[..count].iter().copied().eq(pairs.iter().map(|pair| pair.0)) && seqs[count..].iter().all(|&seq| seq == 7));
        assert!(secs[..count].iter().copied().eq(pairs.iter().map(|pair| pair.1)) && secs[count..].iter().all(|&sec| sec == 7));
        for interval_secs in INTERVALS {
            let named = TableAnswer { state: State { interval_secs, ..state }, ..answer };
            assert!(told(Some(interval_secs), &image, 8195, 8192) == (named, seqs.clone(), secs.clone()), "{count} pairs, interval {interval_secs}");
            let tracker = SequenceTracker::from_bytes_with_interval(&image, interval_secs).unwrap();
            assert_eq!((tracker.capacity(), tracker.interval_secs(), kept(&tracker) == pairs), (8192, interval_secs, true));
            assert_eq!(tracker.last_recorded(), SequenceTracker::from_bytes(&image).unwrap().last_recorded());
        }
    }
}

fn too_long() {
    let image = image_of([(100, 0), (164, 60)]);
    let settings = Answer { number: 15, ..Answer::default() };
    for interval_secs in TOO_LONG {
        // Good bytes, none, of another version, and cut.
        for bytes in [&image[..], &[], &[2], &image[..32]] {
            for (n, m) in [(8192, 8192), (8191, 8192), (8192, 8191), (0, 0)] {
                assert!(told(Some(interval_secs), bytes, n, m) == refusal(settings, n, m), "{} bytes, {n} and {m} places", bytes.len());
            }
            assert_eq!(SequenceTracker::from_bytes_with_interval(bytes, interval_secs), Err(Error::Settings));
        }
    }
}

fn no_room() {
    let image = image_of([(100, 0), (164, 60)]);
    let disagrees = Answer { number: 14, ..Answer::default() };
    for interval_secs in INTERVALS.map(Some).into_iter().chain([None]) {
        for bytes in [&image[..], &[], &[2], &image[..32]] {
            for (n, m) in [(8191, 8192), (8192, 8191), (8191, 8191), (0, 0)] {
                assert!(told(interval_secs, bytes, n, m) == refusal(disagrees, n, m), "{} bytes, {n} and {m} places", bytes.len());
            }
        }
    }
}

/// Bytes for each number that a restore refuses bytes by.
fn bad_bytes() -> [(u32, Vec<u8>); 13] {
    let whole = image_of([(100, 0), (164, 60)]);
    let changed = |at: usize, byte: u8| [&whole[..at], &[byte], &whole[at + 1..]].concat();
    // Nine zeros have a code of one bit each but the first: with 01 for these, the prefix of the last is cut off.
    let prefix = [&image_of([(0, 0); 9])[..17], &[1]].concat();
    const PAST: i64 = 253_402_300_800;
    [
        (1, vec![]),
        (2, changed(0, 2)),
        (3, whole[..4].to_vec()),
        (4, whole[..22].to_vec()),
        (5, whole[..16].to_vec()),
        (6, whole[..31].to_vec()),
        (7, prefix),
        (8, whole[..32].to_vec()),
        (9, changed(22, 1)),
        (10, image_of([(0, 0); 8193])),
        (11, image_of([(1, 0), (2, 1), (1, 0)])),
        (12, image_of([(1, 0), (2, 1), (3, 0)])),
        (13, image_of([(1, PAST - 1), (2, PAST)])),
    ]
}

fn refused() {
    for (number, bytes) in bad_bytes() {
        let plain = told(None, &bytes, 8192, 8193);
        let answer = plain.0.answer;
        assert_eq!((answer.number, answer.byte > 0), (number, (4..=8).contains(&number)));
        assert!(plain == refusal(answer, 8192, 8193), "{number}");
        for interval_secs in INTERVALS {
            assert!(told(Some(interval_secs), &bytes, 8192, 8193) == plain, "{number} at interval {interval_secs}");
            assert_eq!(SequenceTracker::from_bytes_with_interval(&bytes, interval_secs), Err(Error::of(&answer).unwrap()));
        }
    }
}

fn next_offers() {
    let image = table(8192, 0, &[(5, 100)]).to_bytes_strict().unwrap();
    let after = |interval_secs, second| SequenceTracker::from_bytes_with_interval(&image, interval_secs).unwrap().insert(pair(6, second)).unwrap();
    assert_eq!([99, 100, 159, 160].map(|second| after(60, second)), [WentBack, TooSoon, TooSoon, Recorded]);
    assert_eq!([99, 100, 109, 110].map(|second| after(10, second)), [WentBack, TooSoon, TooSoon, Recorded]);
    assert_eq!([99, 100, 101].map(|second| after(1, second)), [WentBack, TooSoon, Recorded]);
    assert_eq!([99, 100].map(|second| after(0, second)), [WentBack, Recorded]);
    assert_eq!([99, 100, 253_402_300_799].map(|second| after((1 << 63) - 1, second)), [WentBack, TooSoon, TooSoon]);
    let plain = |second| SequenceTracker::from_bytes(&image).unwrap().insert(pair(6, second)).unwrap();
    assert_eq!([99, 100, 109, 110].map(plain), [WentBack, TooSoon, TooSoon, Recorded]);
}
