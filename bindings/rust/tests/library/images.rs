//! Images: written, read back, damaged.
use crate::chance::Chance;
use crate::run::Case;
use crate::tables::{kept, pair, table};
use skutlaneb::bits::Place;
use skutlaneb::image::encode_pairs;
use skutlaneb::{Array, Error, FindOption, Inserted, SequenceTracker};

pub const CASES: &[Case] = &[
    ("the empty table's image", empty),
    ("the image of two pairs, byte by byte", two_pairs),
    ("a restored table goes on as the saved one would", goes_on),
    ("strict saves refuse by 20 what would read back as other pairs", strict),
    ("the greatest sequence after 0 is saved strictly", greatest),
    ("strict saves and restores between offers change nothing", between_offers),
    ("an image cut after any byte is refused by its number", cut),
    ("another version, count or byte after the image", other_bytes),
    ("an image out of order or out of the years is refused by 11, 12, 13", out_of_order),
    ("an image of more than 8,192 pairs is refused by 10", too_many),
    ("damaged bytes are refused, or restored to a table that saves as it was read", any_bytes),
];

const TWO_PAIRS: [u8; 33] = [1, 2, 0, 0, 0, 0, 0, 0, 2, 0, 0, 0, 0, 0, 0, 0, 0x64, 0xC4, 0, 0, 0, 0, 2, 0, 0, 0, 0, 0, 0, 0, 0, 0x9E, 0];

fn empty() {
    let image = SequenceTracker::new().to_bytes().unwrap();
    assert_eq!(image, [1, 0, 0, 0, 0, 0, 0, 0, 0, 0, 0, 0, 0]);
    let restored = SequenceTracker::from_bytes(&image).unwrap();
    assert_eq!((restored.len(), restored.last_recorded()), (0, None));
}

fn two_pairs() {
    let tracker = table(8192, 10, &[(100, 0), (164, 60)]);
    assert_eq!(tracker.to_bytes().unwrap(), TWO_PAIRS);
    assert_eq!(tracker.to_bytes_strict().unwrap(), TWO_PAIRS);
    assert_eq!(SequenceTracker::from_bytes(&TWO_PAIRS).unwrap(), tracker);
    assert_eq!(SequenceTracker::try_from(&TWO_PAIRS[..]), Ok(tracker));
    // The interval is not in the bytes.
    let at_60 = table(8192, 60, &[(100, 0), (164, 60)]);
    assert_eq!((at_60.to_bytes().unwrap(), at_60.to_bytes_strict().unwrap()), (TWO_PAIRS.to_vec(), TWO_PAIRS.to_vec()));
    assert_eq!(SequenceTracker::from_bytes_with_interval(&TWO_PAIRS, 60), Ok(at_60));
    assert_eq!(SequenceTracker::try_from(&TWO_PAIRS[..4]), Err(Error::HeaderCut));
}

fn goes_on() {
    let plain = SequenceTracker::from_bytes(&TWO_PAIRS).unwrap();
    let at_60 = SequenceTracker::from_bytes_with_interval(&TWO_PAIRS, 60).unwrap();
    for (mut restored, interval_secs) in [(plain, 10), (at_60, 60)] {
        let next = 60 + interval_secs as i64;
        assert_eq!((restored.capacity(), restored.interval_secs()), (8192, interval_secs));
        assert_eq!(restored.insert(pair(170, next - 1)), Ok(Inserted::TooSoon));
        assert_eq!(restored.insert(pair(163, next)), Err(Error::OfferedDrops));
        assert_eq!(restored.insert(pair(164, next)), Ok(Inserted::Recorded));
        assert_eq!(kept(&restored), [(100, 0), (164, 60), (164, next)]);
    }
}

fn strict() {
    let wide = table(8, 0, &[(0, 0), (1, 1 << 31)]);
    assert_eq!(wide.to_bytes_strict(), Err(Error::Wide { array: Array::Seconds, index: 1 }));
    let other = SequenceTracker::from_bytes(&wide.to_bytes().unwrap());
    assert_eq!(other, Err(Error::SecondDrops { index: 1 }));
    let narrow = table(8, 0, &[(0, 0), (1, (1 << 31) - 1)]);
    let restored = SequenceTracker::from_bytes(&narrow.to_bytes_strict().unwrap()).unwrap();
    assert_eq!(kept(&restored), kept(&narrow));
    let wide = table(8, 0, &[(0, 0), (1 << 40, 1), (1 << 41, 1 << 32)]);
    assert_eq!(wide.to_bytes_strict(), Err(Error::Wide { array: Array::Sequences, index: 1 }));
}

fn greatest() {
    let tracker = table(8, 0, &[(0, 0), (u64::MAX, 0)]);
    let image = tracker.to_bytes_strict().unwrap();
    assert_eq!(kept(&SequenceTracker::from_bytes(&image).unwrap()), [(0, 0), (u64::MAX, 0)]);
}

fn between_offers() {
    assert!(kept_between(SequenceTracker::new(), SequenceTracker::from_bytes) > 400);
    assert!(kept_between(table(8192, 60, &[]), |bytes| SequenceTracker::from_bytes_with_interval(bytes, 60)) > 200);
}

/// Offers to a table, with a save and a restore after each, and to one that is not saved: how many pairs both keep.
fn kept_between(empty: SequenceTracker, restore: fn(&[u8]) -> Result<SequenceTracker, Error>) -> usize {
    let (mut stored, mut held) = (empty.clone(), empty);
    let (mut seq, mut second) = (1u64, -5i64);
    for i in 0..600u64 {
        seq += i * 37 % 91;
        second += (i * 53 % 97) as i64;
        assert_eq!(stored.insert(pair(seq, second)), held.insert(pair(seq, second)));
        stored = restore(&stored.to_bytes_strict().unwrap()).unwrap();
        assert_eq!(stored, held);
        assert_eq!(stored.last_recorded(), held.last_recorded());
        assert_eq!(stored.find_ts(seq / 2, FindOption::RoundUp), held.find_ts(seq / 2, FindOption::RoundUp));
    }
    held.len()
}

fn cut() {
    let (q, s) = (Array::Sequences, Array::Seconds);
    let at = |byte| Place { byte, bit: 0 };
    for n in 0..TWO_PAIRS.len() {
        let refused = match n {
            0 => Error::Empty,
            1..=4 => Error::HeaderCut,
            5..=8 => Error::CountCut { array: q, at: at(5) },
            9..=16 => Error::FirstCut { array: q, at: at(9) },
            17 => Error::CodeMissing { array: q, index: 1, at: at(17) },
            18 => Error::DifferenceCut { array: q, index: 1, width: 9, at: at(17) },
            19..=22 => Error::CountCut { array: s, at: at(19) },
            23..=30 => Error::FirstCut { array: s, at: at(23) },
            31 => Error::CodeMissing { array: s, index: 1, at: at(31) },
            _ => Error::DifferenceCut { array: s, index: 1, width: 7, at: at(31) },
        };
        assert_eq!(SequenceTracker::from_bytes(&TWO_PAIRS[..n]), Err(refused), "cut after {n} bytes");
    }
}

fn other_bytes() {
    let changed = |at: usize, byte: u8| {
        let mut image = TWO_PAIRS;
        image[at] = byte;
        SequenceTracker::from_bytes(&image)
    };
    assert_eq!(changed(0, 2), Err(Error::Version { byte: 2 }));
    assert_eq!(changed(0, 0), Err(Error::Version { byte: 0 }));
    assert_eq!(changed(1, 3), Err(Error::CountDiffers { array: Array::Sequences }));
    assert_eq!(changed(22, 1), Err(Error::CountDiffers { array: Array::Seconds }));
    // Bits of padding, and bytes after the image, are ignored.
    assert_eq!(changed(18, 0x0F).map(|t| kept(&t)), Ok(vec![(100, 0), (164, 60)]));
    let followed = [&TWO_PAIRS[..], b"more"].concat();
    assert_eq!(SequenceTracker::from_bytes(&followed).map(|t| kept(&t)), Ok(vec![(100, 0), (164, 60)]));
}

/// The image of two arrays, whatever stands in them.
fn image_of(seqs: &[u64], secs: &[i64]) -> Vec<u8> {
    let pairs: Vec<_> = seqs.iter().zip(secs).map(|(&seq, &sec)| pair(seq, sec)).collect();
    encode_pairs(&pairs).unwrap()
}

fn out_of_order() {
    let of = |seqs: &[u64], secs: &[i64]| SequenceTracker::from_bytes(&image_of(seqs, secs)).err();
    assert_eq!(of(&[1, 2, 1], &[0, 1, 0]), Some(Error::SequenceDrops { index: 2 }));
    assert_eq!(of(&[1, 2, 3], &[0, 1, 0]), Some(Error::SecondDrops { index: 2 }));
    assert_eq!(of(&[1], &[253_402_300_800]), Some(Error::SecondOutside { index: 0 }));
    assert_eq!(of(&[1], &[-62_135_596_801]), Some(Error::SecondOutside { index: 0 }));
    assert_eq!(of(&[1, 1], &[0, 0]), None);
}

fn too_many() {
    let of = |n: u64| SequenceTracker::from_bytes(&image_of(&(0..n).collect::<Vec<_>>(), &(0..n as i64).collect::<Vec<_>>()));
    assert_eq!(of(8192).map(|t| t.len()), Ok(8192));
    assert_eq!(of(8193), Err(Error::TooManyPairs { array: Array::Sequences }));
}

/// Bytes of chance, and one byte of an image another: what is restored saves to an image that is restored to the same.
fn any_bytes() {
    let mut chance = Chance(20_160_101);
    let mut restored = 0;
    for _ in 0..20_000 {
        let mut image = TWO_PAIRS.to_vec();
        let byte = chance.number() as u8;
        image[chance.below(TWO_PAIRS.len() as u64) as usize] = byte;
        image.truncate(TWO_PAIRS.len() + 1 - chance.below(3) as usize);
        if let Ok(tracker) = SequenceTracker::from_bytes(&image) {
            restored += 1;
            if let Ok(saved) = tracker.to_bytes_strict() {
                assert_eq!(SequenceTracker::from_bytes(&saved).unwrap(), tracker);
            }
        }
    }
    assert!(restored > 1000);
}
