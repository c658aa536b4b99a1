//! Images of two arrays, or of pairs, with no table. Neither the order of the values nor their range is judged here.
//!
//! The calls that take arrays have the names of the library's and allocate nothing. Those that take or give pairs end in `_pairs` and allocate what they give. The
//! numbers are those of the list of refusals in docs/RULES.md. A refused call leaves every slice as it was.
//!
//! ```no_run
//! use skutlaneb::{image, TrackedSeq};
//!
//! # fn main() -> Result<(), skutlaneb::Error> {
//! let pairs = [(100, 0), (164, 60)].map(TrackedSeq::from);
//! let bytes = image::encode_strict_pairs(&pairs)?;
//! assert_eq!(image::decode_pairs(&bytes)?, pairs);
//! # Ok(())
//! # }
//! ```
use crate::calls::{self, done};
use crate::{Error, TrackedSeq};

/// The bytes that no image of so many pairs exceeds.
pub(crate) fn most_bytes(pairs: usize) -> usize {
    9 * pairs + 21
}

/// The length of the image of two arrays. Refused where they differ in length (18), and above 65,536 values each (19).
pub fn encoded_len(seqs: &[u64], secs: &[i64]) -> Result<usize, Error> {
    done(calls::encoded_len(seqs, secs)).map(|told| told.a as usize)
}

/// Writes the image of two arrays, in the bytes that slatedb writes, and answers its length. Refused by 18 and 19 as [`encoded_len`], and where `out` is too
/// short (21, with the bytes needed). Where 32 bits do not hold a difference of deltas, the bytes read back as other values.
pub fn encode(seqs: &[u64], secs: &[i64], out: &mut [u8]) -> Result<usize, Error> {
    done(calls::encode(seqs, secs, out)).map(|told| told.a as usize)
}

/// The same, but refused where the image would read back as other values (20, with the array and the index): 18, 19, 20, 21, in this order.
pub fn encode_strict(seqs: &[u64], secs: &[i64], out: &mut [u8]) -> Result<usize, Error> {
    done(calls::encode_strict(seqs, secs, out)).map(|told| told.a as usize)
}

/// Reads the image at the start of the bytes into two arrays, and answers the number of pairs; places from there on keep what they held. Refused by 1 to 10:
/// by 10 where an array's count is above the shorter of the two slices. 4 to 8 tell where the bytes stop, here and below: [`Error::place`].
pub fn decode(bytes: &[u8], seqs: &mut [u64], secs: &mut [i64]) -> Result<usize, Error> {
    done(calls::decode(bytes, seqs, secs)).map(|told| told.a as usize)
}

/// The length of the image at the start of the bytes. Refused by 1 to 9.
pub fn image_len(bytes: &[u8]) -> Result<usize, Error> {
    done(calls::image_len(bytes)).map(|told| told.a as usize)
}

/// The image of pairs as [`encode`] writes it. Refused above 65,536 pairs (19).
pub fn encode_pairs(pairs: &[TrackedSeq]) -> Result<Vec<u8>, Error> {
    image_of(pairs, encode)
}

/// The image of pairs as [`encode_strict`] writes it. Refused by 19 and 20.
pub fn encode_strict_pairs(pairs: &[TrackedSeq]) -> Result<Vec<u8>, Error> {
    image_of(pairs, encode_strict)
}

type Encoder = fn(&[u64], &[i64], &mut [u8]) -> Result<usize, Error>;

fn image_of(pairs: &[TrackedSeq], encoder: Encoder) -> Result<Vec<u8>, Error> {
    let seqs: Vec<u64> = pairs.iter().map(|pair| pair.seq.0).collect();
    let secs: Vec<i64> = pairs.iter().map(|pair| pair.ts.0).collect();
    let mut out = vec![0; most_bytes(pairs.len())];
    let length = encoder(&seqs, &secs, &mut out)?;
    out.truncate(length);
    Ok(out)
}

/// The pairs of the image at the start of the bytes. Refused by 1 to 9. Whatever the bytes are, at most 4 pairs for each byte are allocated, of 32 bytes each
/// while they are read and of 16 after.
pub fn decode_pairs(bytes: &[u8]) -> Result<Vec<TrackedSeq>, Error> {
    // A count in the header that the bytes do not bear out is refused here, before it is allocated for. After that each array has as many values, each of at
    // least one bit.
    image_len(bytes)?;
    let count = header_count(bytes);
    let (mut seqs, mut secs) = (vec![0; count], vec![0; count]);
    decode(bytes, &mut seqs, &mut secs)?;
    Ok(seqs.into_iter().zip(secs).map(TrackedSeq::from).collect())
}

/// The count in an image's header: four bytes after the version, the lowest first.
fn header_count(image: &[u8]) -> usize {
    image.iter().skip(1).take(4).rev().fold(0, |count, &byte| count << 8 | usize::from(byte))
}
