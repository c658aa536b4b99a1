//! Where bytes stop: the place that 4 to 8 tell, at which the item begins that is not there in full.
use crate::run::Case;
use crate::tables::table;
use skutlaneb::bits::{read_bits, sign_extend, Place};
use skutlaneb::image::{decode, decode_pairs, encode_pairs, image_len};
use skutlaneb::sys::{self, Answer};
use skutlaneb::{Array, Error, SequenceTracker, TrackedSeq};
use std::collections::BTreeSet;

pub const CASES: &[Case] = &[
    ("each of 4 to 8 tells its place, in the sequences and in the seconds", each),
    ("an image cut after any byte tells the place of the first item that is not whole", cut),
    ("an answer that is not 4 to 8 has no place", placeless),
];

/// What every call that reads images answers, which is the same.
fn read(bytes: &[u8]) -> Error {
    let (mut seqs, mut secs) = (vec![7; 8192], vec![7; 8192]);
    let refused = decode(bytes, &mut seqs, &mut secs).unwrap_err();
    assert!(seqs == [7; 8192] && secs == [7; 8192]);
    assert_eq!(image_len(bytes), Err(refused));
    assert_eq!(decode_pairs(bytes), Err(refused));
    assert_eq!(SequenceTracker::from_bytes(bytes), Err(refused));
    assert_eq!(SequenceTracker::from_bytes_with_interval(bytes, 60), Err(refused));
    refused
}

/// The bytes of an array: its count, 0 for the first value, and codes.
fn array(count: u8, codes: &[u8]) -> Vec<u8> {
    [&[0, 0, 0, count, 0, 0, 0, 0, 0, 0, 0, 0], codes].concat()
}

/// What is answered to an input that ends in an array: as its sequences, and as its seconds after sequences that are all 0.
fn both(count: u8, ending: &[u8]) -> [Error; 2] {
    let header = [1, count, 0, 0, 0];
    let zeros = array(count, &vec![0; usize::from(count - 1).div_ceil(8)]);
    [read(&[&header, ending].concat()), read(&[&header, &zeros[..], ending].concat())]
}

fn each() {
    let arrays = [Array::Sequences, Array::Seconds];
    // A byte of the sequences, and the same one in the seconds.
    let at = |count: usize, byte, bit| [Place { byte, bit }, Place { byte: byte + 12 + (count - 1).div_ceil(8), bit }];
    let with = |places: [Place; 2], error: fn(Array, Place) -> Error| [0, 1].map(|i| error(arrays[i], places[i]));

    for length in 0..12 {
        let cut = both(2, &array(2, &[])[..length]);
        if length < 4 {
            assert_eq!(cut, with(at(2, 5, 0), |array, at| Error::CountCut { array, at }));
        } else {
            assert_eq!(cut, with(at(2, 9, 0), |array, at| Error::FirstCut { array, at }));
        }
    }

    assert_eq!(both(2, &array(2, &[])), with(at(2, 17, 0), |array, at| Error::CodeMissing { array, index: 1, at }));
    assert_eq!(both(10, &array(10, &[0])), with(at(10, 18, 0), |array, at| Error::CodeMissing { array, index: 9, at }));
    // A code of 12 bits and four of one.
    assert_eq!(both(7, &array(7, &[0xC0, 0])), with(at(7, 19, 0), |array, at| Error::CodeMissing { array, index: 6, at }));

    assert_eq!(both(9, &array(9, &[0x01])), with(at(9, 17, 7), |array, at| Error::PrefixCut { array, index: 8, at }));
    assert_eq!(both(9, &array(9, &[0x03])), with(at(9, 17, 6), |array, at| Error::PrefixCut { array, index: 7, at }));
    assert_eq!(both(9, &array(9, &[0x07])), with(at(9, 17, 5), |array, at| Error::PrefixCut { array, index: 6, at }));

    let cut =
        |count: u8, codes: &[u8], bit, error| assert_eq!(both(count, &array(count, codes)), with(at(count.into(), 17, bit), error), "{codes:?}");
    cut(2, &[0x80], 0, |array, at| Error::DifferenceCut { array, index: 1, width: 7, at });
    cut(3, &[0x40], 1, |array, at| Error::DifferenceCut { array, index: 2, width: 7, at });
    // None of the 7 bits, and none of the 32.
    cut(9, &[0x02], 6, |array, at| Error::DifferenceCut { array, index: 7, width: 7, at });
    cut(9, &[0x0F], 4, |array, at| Error::DifferenceCut { array, index: 5, width: 32, at });
    cut(2, &[0xC0], 0, |array, at| Error::DifferenceCut { array, index: 1, width: 9, at });
    cut(2, &[0xE0], 0, |array, at| Error::DifferenceCut { array, index: 1, width: 12, at });
    // The input ends in another byte than the one in which the code begins.
    cut(9, &[0x01, 0x80], 7, |array, at| Error::DifferenceCut { array, index: 8, width: 9, at });
    cut(2, &[0xF0, 0, 0, 0], 0, |array, at| Error::DifferenceCut { array, index: 1, width: 32, at });
}

/// The differences of deltas of values, of all but the first.
fn differences(values: &[i64]) -> Vec<i64> {
    let deltas: Vec<i64> = std::iter::once(0).chain(values.windows(2).map(|two| two[1] - two[0])).collect();
    deltas.windows(2).map(|two| two[1] - two[0]).collect()
}

/// The bits of a difference's prefix and of the difference after it.
fn bits_of(difference: i64) -> (usize, usize) {
    match difference {
        0 => (1, 0),
        -63..=63 => (2, 7),
        -255..=255 => (3, 9),
        -2047..=2047 => (4, 12),
        _ => (4, 32),
    }
}

/// An item of an image: the bit at which it begins and its length, what is answered to an input that ends so many bits after its start, and its value.
struct Item {
    start: usize,
    length: usize,
    refused: Box<dyn Fn(usize, Place) -> Error>,
    value: i64,
}

/// The items of an image of pairs, by the rules of the format and not by the image.
fn items(arrays: [(Array, &[i64]); 2]) -> Vec<Item> {
    let (mut items, mut start) = (Vec::new(), 40);
    for (array, values) in arrays {
        let mut item = |length, value, refused: Box<dyn Fn(usize, Place) -> Error>| {
            items.push(Item { start, length, refused, value });
            start += length;
        };
        item(32, values.len() as i64, Box::new(move |_, at| Error::CountCut { array, at }));
        item(64, values[0], Box::new(move |_, at| Error::FirstCut { array, at }));
        for (index, difference) in (1..).zip(differences(values)) {
            let (prefix, width) = bits_of(difference);
            let refused = move |have, at| match have {
                0 => Error::CodeMissing { array, index, at },
                _ if have < prefix => Error::PrefixCut { array, index, at },
                _ => Error::DifferenceCut { array, index, width: width as u64, at },
            };
            item(prefix + width, difference, Box::new(refused));
        }
        start = start.next_multiple_of(8);
    }
    items
}

fn bits_at(bytes: &[u8], start: usize, width: usize) -> u64 {
    read_bits(bytes, Place { byte: start / 8, bit: (start % 8) as u8 }, width as u8).unwrap().0
}

/// The value of the item that begins at a bit: a count, a first value, or the difference that a code holds.
fn value_at(image: &[u8], start: usize, number: u32) -> i64 {
    if number < 6 {
        return bits_at(image, start, if number == 4 { 32 } else { 64 }) as i64;
    }
    let ones = (0..4).take_while(|&bit| bits_at(image, start + bit, 1) == 1).count();
    let (used, width) = [(1, 0), (2, 7), (3, 9), (4, 12), (4, 32)][ones];
    let field = bits_at(image, start + used, width);
    if width == 0 {
        0
    } else {
        sign_extend(field as u32, width as u8).unwrap()
    }
}

fn cut() {
    // Steps of every length, by turns, so that codes of each width begin at each bit of a byte.
    let pairs: Vec<(u64, i64)> = (1..=120i64)
        .scan((1000, -500), |(seq, sec), i| {
            *seq += [64, 64, 64, 100, 64, 300, 300, 2000, 90_000][i as usize * 5 % 9] + (i % 7 == 0) as i64;
            *sec += [60, 60, 61, 60, 60, 95, 400, 60, 60, 3000, 1_000_000][i as usize * 7 % 11];
            Some((*seq as u64, *sec))
        })
        .collect();
    let whole = table(8192, 60, &pairs).to_bytes_strict().unwrap();
    let seqs: Vec<i64> = pairs.iter().map(|pair| pair.0 as i64).collect();
    let secs: Vec<i64> = pairs.iter().map(|pair| pair.1).collect();
    let items = items([(Array::Sequences, &seqs), (Array::Seconds, &secs)]);
    assert_eq!(items.last().map(|item| (item.start + item.length).div_ceil(8)), Some(whole.len()));

    assert_eq!(read(&[]), Error::Empty);
    let (mut numbers, mut widths, mut bits) = (BTreeSet::new(), BTreeSet::new(), BTreeSet::new());
    for k in 1..whole.len() {
        let (bytes, error) = (&whole[..k], read(&whole[..k]));
        if k < 5 {
            assert_eq!(error, Error::HeaderCut);
            continue;
        }
        // By what is told alone: the place is at or before the end, and from it on there are as few bits as the number says.
        let at = error.place().expect("a place");
        let start = 8 * at.byte + at.bit as usize;
        let left = (8 * k).checked_sub(start).expect("a place at or before the end");
        let ones = |n: usize| bits_at(bytes, start, n) == (1 << n) - 1;
        let array = match error {
            Error::CountCut { array, .. } if left < 32 => array,
            Error::FirstCut { array, .. } if left < 64 => array,
            Error::CodeMissing { array, .. } if left == 0 => array,
            Error::PrefixCut { array, .. } if (1..=3).contains(&left) && ones(left) => array,
            Error::DifferenceCut { array, width: 7, .. } if (2..9).contains(&left) && ones(1) => array,
            Error::DifferenceCut { array, width: 9, .. } if (3..12).contains(&left) && ones(2) => array,
            Error::DifferenceCut { array, width: 12, .. } if (4..16).contains(&left) && ones(3) => array,
            Error::DifferenceCut { array, width: 32, .. } if (4..36).contains(&left) && ones(4) => array,
            _ => panic!("{error}, and {left} bits are left"),
        };
        numbers.insert((error.number(), array));
        bits.insert((error.number(), at.bit));
        if let Error::DifferenceCut { width, .. } = error {
            widths.insert(width);
        }

        // By the pairs: it is the first item that is not all there. In the whole image the item stands there, and with its bits the input goes on past it.
        let item = items.iter().find(|item| item.start + item.length > 8 * k).unwrap();
        let begins = Place { byte: item.start / 8, bit: (item.start % 8) as u8 };
        assert_eq!(error, (item.refused)(8 * k - item.start, begins), "cut after {k} bytes");
        assert_eq!(value_at(&whole, item.start, error.number()), item.value);
        let end = (item.start + item.length).div_ceil(8);
        assert!(end == whole.len() || read(&whole[..end]).place() > Some(at));
    }
    // The cuts tried what they were to try.
    let each = |number| [(number, Array::Sequences), (number, Array::Seconds)];
    assert!(numbers.iter().copied().eq((4..=8).flat_map(each)), "{numbers:?}");
    assert!(widths.iter().copied().eq([7, 9, 12, 32]), "{widths:?}");
    assert!((0..8).all(|bit| bits.contains(&(8, bit))) && (5..8).all(|bit| bits.contains(&(7, bit))), "{bits:?}");
}

fn placeless() {
    let whole = encode_pairs(&[(100, 0), (164, 60)].map(TrackedSeq::from)).unwrap();
    let changed = |at: usize, byte: u8| {
        let mut image = whole.clone();
        image[at] = byte;
        image
    };
    let told = |number, a, b| Answer { number, a, b, ..Answer::default() };
    let inputs = [
        (vec![], told(1, 0, 0)),
        (changed(0, 2), told(2, 2, 0)),
        (whole[..4].to_vec(), told(3, 0, 0)),
        (changed(1, 3), told(9, 0, 0)),
        (changed(22, 1), told(9, 1, 0)),
        (whole.clone(), told(0, 33, 0)),
    ];
    let (mut seqs, mut secs) = (vec![0u64; 8192], vec![0i64; 8192]);
    let (s, z) = (seqs.as_mut_ptr(), secs.as_mut_ptr());
    unsafe {
        for (bytes, answer) in inputs {
            assert_eq!(sys::skut_image_len(bytes.as_ptr(), bytes.len()), answer);
            if answer.number != 0 {
                assert_eq!(sys::skut_decode(bytes.as_ptr(), bytes.len(), s, 2, z, 2), answer);
                assert_eq!(sys::skut_restore(bytes.as_ptr(), bytes.len(), s, 8192, z, 8192).answer, answer);
                assert_eq!(sys::skut_restore_with_interval(bytes.as_ptr(), bytes.len(), s, 8192, z, 8192, 60).answer, answer);
            }
        }
        let (bytes, length) = (whole.as_ptr(), whole.len());
        assert_eq!(sys::skut_decode(bytes, length, s, 1, z, 2), told(10, 0, 0));
        assert_eq!(sys::skut_decode(bytes, length, s, 2, z, 2), told(0, 2, 0));
        assert_eq!(sys::skut_restore(bytes, length, s, 8191, z, 8192).answer, told(14, 0, 0));
        assert_eq!(sys::skut_restore(bytes, length, s, 8192, z, 8192).answer, told(0, 0, 0));
        for (n, interval_secs, number) in [(8191, 60, 14), (8191, 1 << 63, 15), (8192, 1 << 63, 15), (8192, 60, 0)] {
            assert_eq!(sys::skut_restore_with_interval(bytes, length, s, n, z, 8192, interval_secs).answer, told(number, 0, 0));
        }
        assert_eq!(sys::skut_read_bits(bytes, length, 32, 0, 9), told(24, 8, 0));
        assert_eq!(sys::skut_read_bits(bytes, length, 0, 0, 65), told(23, 0, 0));
        assert_eq!(sys::skut_encode(s, 2, z, 2, null_out(), 0), told(21, 33, 0));
        assert_eq!(sys::skut_encode_strict([0, 1 << 33].as_ptr(), 2, [0, 60].as_ptr(), 2, null_out(), 0), told(20, 0, 1));
    }
}

fn null_out() -> *mut u8 {
    std::ptr::null_mut()
}
