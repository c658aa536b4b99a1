//! Images of arrays and of pairs, with no table.
use crate::run::Case;
use skutlaneb::image::{decode, decode_pairs, encode, encode_pairs, encode_strict, encode_strict_pairs, encoded_len, image_len};
use skutlaneb::{Array, Error, TrackedSeq};

pub const CASES: &[Case] = &[
    ("arrays are written, measured and read back", there_and_back),
    ("arrays that cannot be written are refused by 18, 19, 20, 21", unwritten),
    ("arrays that cannot be read are refused by 1 to 10 and stay as they were", unread),
    ("pairs are written and read back, in any order", pairs),
    ("pairs that cannot be written are refused by 19 and 20", unwritten_pairs),
    ("a count that the bytes do not bear out is refused", counts),
    ("images of one-bit codes are the shortest", shortest),
];

const SEQS: [u64; 3] = [100, 164, 7];
const SECS: [i64; 3] = [0, 60, i64::MIN];

fn there_and_back() {
    let mut out = [7; 100];
    let length = encode(&SEQS, &SECS, &mut out).unwrap();
    assert_eq!((Ok(length), out[length..].iter().all(|&byte| byte == 7)), (encoded_len(&SEQS, &SECS), true));
    assert_eq!(image_len(&out), Ok(length));
    let (mut seqs, mut secs) = ([9; 4], [9; 5]);
    assert_eq!(decode(&out, &mut seqs, &mut secs), Ok(3));
    assert_eq!((seqs, secs[..2].to_vec(), secs[3..].to_vec()), ([100, 164, 7, 9], vec![0, 60], vec![9, 9]));
    let narrow = [0, 60, 50];
    let strict = encode_strict(&SEQS, &narrow, &mut out).unwrap();
    assert_eq!((decode(&out[..strict], &mut seqs, &mut secs), secs), (Ok(3), [0, 60, 50, 9, 9]));
}

fn unwritten() {
    let mut out = [7; 32];
    let many = (vec![0; 65_537], vec![0; 65_537]);
    for call in [encode, encode_strict] {
        assert_eq!(call(&SEQS, &SECS[..2], &mut out), Err(Error::LengthsDiffer));
        assert_eq!(call(&many.0, &many.1, &mut out), Err(Error::TooManyValues));
        assert_eq!(call(&SEQS[..2], &SECS[..2], &mut out), Err(Error::Room { bytes: 33 }));
    }
    assert_eq!(encode_strict(&SEQS, &SECS, &mut out), Err(Error::Wide { array: Array::Seconds, index: 2 }));
    assert_eq!(encoded_len(&SEQS[..1], &SECS), Err(Error::LengthsDiffer));
    assert_eq!(encoded_len(&many.0, &many.1), Err(Error::TooManyValues));
    assert_eq!(out, [7; 32]);
}

fn unread() {
    let image = encode_pairs(&[(100, 0), (164, 60)].map(TrackedSeq::from)).unwrap();
    let (mut seqs, mut secs) = ([9; 2], [9; 2]);
    assert_eq!(decode(&image, &mut seqs, &mut secs[..1]), Err(Error::TooManyPairs { array: Array::Sequences }));
    for end in 0..image.len() {
        let refused = decode(&image[..end], &mut seqs, &mut secs).unwrap_err();
        assert_eq!(image_len(&image[..end]), Err(refused));
        assert_eq!(decode_pairs(&image[..end]), Err(refused));
    }
    assert_eq!((seqs, secs), ([9; 2], [9; 2]));
}

fn pairs() {
    for list in [&[][..], &[(5, -5)], &[(9, 9), (3, 3), (3, 300)], &[(u64::MAX, i64::MIN), (0, i64::MIN)]] {
        let list: Vec<TrackedSeq> = list.iter().copied().map(TrackedSeq::from).collect();
        let image = encode_strict_pairs(&list).unwrap();
        assert_eq!(encode_pairs(&list), Ok(image.clone()));
        assert_eq!(decode_pairs(&[&image[..], b"more"].concat()), Ok(list));
    }
}

fn unwritten_pairs() {
    let wide = [(0, 0), (1 << 33, 60)].map(TrackedSeq::from);
    assert_eq!(encode_strict_pairs(&wide), Err(Error::Wide { array: Array::Sequences, index: 1 }));
    assert_eq!(decode_pairs(&encode_pairs(&wide).unwrap()), Ok([(0, 0), (0, 60)].map(TrackedSeq::from).to_vec()));
    let many = vec![TrackedSeq::from((0, 0)); 65_537];
    assert_eq!(encode_pairs(&many), Err(Error::TooManyValues));
    assert_eq!(encode_strict_pairs(&many), Err(Error::TooManyValues));
    assert_eq!(decode_pairs(&encode_pairs(&many[1..]).unwrap()).map(|list| list.len()), Ok(65_536));
}

fn counts() {
    // 2^32-1 pairs in the header, and in both places: nothing is allocated for them.
    let mut image = encode_pairs(&[(100, 0), (164, 60)].map(TrackedSeq::from)).unwrap();
    image[1..5].fill(0xFF);
    assert_eq!(decode_pairs(&image), Err(Error::CountDiffers { array: Array::Sequences }));
    image[5..9].fill(0xFF);
    assert!(matches!(decode_pairs(&image), Err(Error::CodeMissing { array: Array::Sequences, .. })));
}

fn shortest() {
    for n in [1usize, 2, 9, 10, 1000] {
        let image = encode_pairs(&vec![TrackedSeq::from((0, 0)); n]).unwrap();
        assert_eq!(image.len(), 29 + 2 * (n - 1).div_ceil(8));
        assert!(n <= 4 * image.len());
    }
}
