//! Where the bytes stop: the array, the index and the place that refusals 4 to 8 tell. The Rust's words tell none of them. They are worked out from
//! what its own reader makes of the array's bytes with another count, or with other bits at their end.
use super::super::*;
use super::ours::Answer;
use super::theirs::last_that;

/// The values that the Rust reads of an array with another count and with all bits from one on, counted from the array's start, set to ones or to zeros.
fn read(array: &[u8], count: usize, from: usize, ones: bool) -> Result<Vec<i64>, String> {
    let mut bytes = array.to_vec();
    bytes[..4].copy_from_slice(&(count as u32).to_be_bytes());
    for (i, byte) in bytes.iter_mut().enumerate().skip(from / 8) {
        let set = if i == from / 8 { 0xff >> (from % 8) } else { 0xff };
        *byte = if ones { *byte | set } else { *byte & !set };
    }
    Ok(decode_gorilla_i64_with_length(&bytes)?.1)
}

/// The Rust's refusal 4 to 8 of an image, in its words and as they are understood, with what they do not tell.
pub fn located(image: &[u8], words: &str, said: Answer) -> Answer {
    let (which, start) = match decode_sequence_numbers_with_length(&image[5..]) {
        Err(_) => (0, 5),
        Ok((length, _)) => (1, 5 + length),
    };
    let array = &image[start..];
    if said.number == 4 {
        return Answer { a: which, byte: start as u64, ..said };
    }
    // The index is the greatest count at which the array is read: at one more it is refused in the same words.
    let end = 8 * array.len();
    let count = BitReader::new(array).read32(32).expect("an array with a count") as usize;
    let index = last_that(0, count, |n| read(array, n, end, true).is_ok());
    assert_eq!(read(array, index + 1, end, true), Err(words.to_string()), "{image:02x?}, count {}", index + 1);
    // At that count the missing item begins at the first bit from which on neither ones nor zeros change what is read. No bit before it is such: an item cut
    // there is another with ones than with zeros (in a prefix, or at a code's start, the difference is -1 with ones and 0 with zeros), or one of both is
    // refused; a count cut there leaves no value or a first one of 0 with zeros, and with ones a first one of -1, or is refused.
    let values = read(array, index, end, true);
    let changes = |from: usize| [true, false].iter().any(|&ones| read(array, index, from, ones) != values);
    let place = last_that(0, end, changes) + 1;
    Answer { a: which, b: index as u64, byte: (start + place / 8) as u64, bit: (place % 8) as u64, ..said }
}
