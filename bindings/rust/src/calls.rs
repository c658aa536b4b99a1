//! The library's functions over slices. All unsafe code of the crate stands here.
//!
//! Why the calls are safe: each pointer goes with the length of the slice that it comes from, and what a call writes to is borrowed mutably, so that it
//! overlaps nothing else. The library asks nothing more: whatever the numbers say, it stays within those lengths.
//!
//! Why a list of questions and its answers may be lent as numbers: `Seq` and `Second` are `repr(transparent)`, so that a slice of them is laid out as one of their
//! numbers, and whatever number is written there is one of them. A `bool` is a byte that holds 0 or 1, and the library writes nothing else to a mark, as is proved.
use crate::sys::{self, Answer, SeqSheet, SeqSheetAnswer, State, TableAnswer, TsSheet, TsSheetAnswer, WhyAnswer};
use crate::{Error, Second, Seq};

/// The answer of a call that was not refused.
pub fn done(answer: Answer) -> Result<Answer, Error> {
    Error::of(&answer).map_or(Ok(answer), Err)
}

pub fn new() -> TableAnswer {
    unsafe { sys::skut_new() }
}

pub fn with_config(capacity: u32, interval_secs: u64) -> TableAnswer {
    unsafe { sys::skut_with_config(capacity, interval_secs) }
}

pub fn check(state: State, seqs: &[u64], secs: &[i64]) -> Answer {
    unsafe { sys::skut_check(state, seqs.as_ptr(), seqs.len(), secs.as_ptr(), secs.len()) }
}

pub fn offer(state: State, seqs: &mut [u64], secs: &mut [i64], seq: u64, sec: i64) -> TableAnswer {
    unsafe { sys::skut_offer(state, seqs.as_mut_ptr(), seqs.len(), secs.as_mut_ptr(), secs.len(), seq, sec) }
}

pub fn offer_pairs(state: State, seqs: &mut [u64], secs: &mut [i64], from: (&[u64], &[i64])) -> TableAnswer {
    let (s, n, z, m) = (seqs.as_mut_ptr(), seqs.len(), secs.as_mut_ptr(), secs.len());
    unsafe { sys::skut_offer_pairs(state, s, n, z, m, from.0.as_ptr(), from.0.len(), from.1.as_ptr(), from.1.len()) }
}

pub fn extend_from(state: State, seqs: &mut [u64], secs: &mut [i64], other: State, from: (&[u64], &[i64])) -> TableAnswer {
    let (s, n, z, m) = (seqs.as_mut_ptr(), seqs.len(), secs.as_mut_ptr(), secs.len());
    unsafe { sys::skut_extend_from(state, s, n, z, m, other, from.0.as_ptr(), from.0.len(), from.1.as_ptr(), from.1.len()) }
}

pub fn find_ts(state: State, seqs: &[u64], secs: &[i64], seq: u64, round: u32) -> Answer {
    unsafe { sys::skut_find_ts(state, seqs.as_ptr(), seqs.len(), secs.as_ptr(), secs.len(), seq, round) }
}

pub fn find_seq(state: State, seqs: &[u64], secs: &[i64], sec: i64, round: u32) -> Answer {
    unsafe { sys::skut_find_seq(state, seqs.as_ptr(), seqs.len(), secs.as_ptr(), secs.len(), sec, round) }
}

pub fn find_ts_16(state: State, seqs: &[u64], secs: &[i64], sheet: TsSheet, round: u32) -> TsSheetAnswer {
    unsafe { sys::skut_find_ts_16(state, seqs.as_ptr(), seqs.len(), secs.as_ptr(), secs.len(), sheet, round) }
}

pub fn find_seq_16(state: State, seqs: &[u64], secs: &[i64], sheet: SeqSheet, round: u32) -> SeqSheetAnswer {
    unsafe { sys::skut_find_seq_16(state, seqs.as_ptr(), seqs.len(), secs.as_ptr(), secs.len(), sheet, round) }
}

/// `to` has the answers and the marks.
pub fn find_ts_each(state: State, seqs: &[u64], secs: &[i64], keys: &[Seq], to: (&mut [Second], &mut [bool]), round: u32) -> Answer {
    let (s, n, z, m) = (seqs.as_ptr(), seqs.len(), secs.as_ptr(), secs.len());
    let (k, a, f) = (keys.as_ptr().cast::<u64>(), to.0.as_mut_ptr().cast::<i64>(), to.1.as_mut_ptr().cast::<u8>());
    unsafe { sys::skut_find_ts_each(state, s, n, z, m, k, keys.len(), a, to.0.len(), f, to.1.len(), round) }
}

/// `to` has the answers and the marks.
pub fn find_seq_each(state: State, seqs: &[u64], secs: &[i64], keys: &[Second], to: (&mut [Seq], &mut [bool]), round: u32) -> Answer {
    let (s, n, z, m) = (seqs.as_ptr(), seqs.len(), secs.as_ptr(), secs.len());
    let (k, a, f) = (keys.as_ptr().cast::<i64>(), to.0.as_mut_ptr().cast::<u64>(), to.1.as_mut_ptr().cast::<u8>());
    unsafe { sys::skut_find_seq_each(state, s, n, z, m, k, keys.len(), a, to.0.len(), f, to.1.len(), round) }
}

pub fn why_ts(state: State, seqs: &[u64], secs: &[i64], seq: u64, round: u32) -> WhyAnswer {
    unsafe { sys::skut_why_ts(state, seqs.as_ptr(), seqs.len(), secs.as_ptr(), secs.len(), seq, round) }
}

pub fn why_seq(state: State, seqs: &[u64], secs: &[i64], sec: i64, round: u32) -> WhyAnswer {
    unsafe { sys::skut_why_seq(state, seqs.as_ptr(), seqs.len(), secs.as_ptr(), secs.len(), sec, round) }
}

pub fn save(state: State, seqs: &[u64], secs: &[i64], out: &mut [u8]) -> Answer {
    unsafe { sys::skut_save(state, seqs.as_ptr(), seqs.len(), secs.as_ptr(), secs.len(), out.as_mut_ptr(), out.len()) }
}

pub fn save_strict(state: State, seqs: &[u64], secs: &[i64], out: &mut [u8]) -> Answer {
    unsafe { sys::skut_save_strict(state, seqs.as_ptr(), seqs.len(), secs.as_ptr(), secs.len(), out.as_mut_ptr(), out.len()) }
}

pub fn restore(bytes: &[u8], seqs: &mut [u64], secs: &mut [i64]) -> TableAnswer {
    unsafe { sys::skut_restore(bytes.as_ptr(), bytes.len(), seqs.as_mut_ptr(), seqs.len(), secs.as_mut_ptr(), secs.len()) }
}

pub fn restore_with_interval(bytes: &[u8], seqs: &mut [u64], secs: &mut [i64], interval_secs: u64) -> TableAnswer {
    let (s, n, z, m) = (seqs.as_mut_ptr(), seqs.len(), secs.as_mut_ptr(), secs.len());
    unsafe { sys::skut_restore_with_interval(bytes.as_ptr(), bytes.len(), s, n, z, m, interval_secs) }
}

pub fn encoded_len(seqs: &[u64], secs: &[i64]) -> Answer {
    unsafe { sys::skut_encoded_len(seqs.as_ptr(), seqs.len(), secs.as_ptr(), secs.len()) }
}

pub fn encode(seqs: &[u64], secs: &[i64], out: &mut [u8]) -> Answer {
    unsafe { sys::skut_encode(seqs.as_ptr(), seqs.len(), secs.as_ptr(), secs.len(), out.as_mut_ptr(), out.len()) }
}

pub fn encode_strict(seqs: &[u64], secs: &[i64], out: &mut [u8]) -> Answer {
    unsafe { sys::skut_encode_strict(seqs.as_ptr(), seqs.len(), secs.as_ptr(), secs.len(), out.as_mut_ptr(), out.len()) }
}

pub fn decode(bytes: &[u8], seqs: &mut [u64], secs: &mut [i64]) -> Answer {
    unsafe { sys::skut_decode(bytes.as_ptr(), bytes.len(), seqs.as_mut_ptr(), seqs.len(), secs.as_mut_ptr(), secs.len()) }
}

pub fn image_len(bytes: &[u8]) -> Answer {
    unsafe { sys::skut_image_len(bytes.as_ptr(), bytes.len()) }
}

pub fn sign_extend(val: u32, bits: u8) -> Answer {
    unsafe { sys::skut_sign_extend(val, bits) }
}

pub fn read_bits(bytes: &[u8], byte: usize, bit: u8, width: u8) -> Answer {
    unsafe { sys::skut_read_bits(bytes.as_ptr(), bytes.len(), byte, bit, width) }
}

pub fn write_bits(buf: &mut [u8], byte: usize, bit: u8, value: u64, width: u8) -> Answer {
    unsafe { sys::skut_write_bits(buf.as_mut_ptr(), buf.len(), byte, bit, value, width) }
}

pub fn write_date(sec: i64, out: &mut [u8]) -> Answer {
    unsafe { sys::skut_write_date(sec, out.as_mut_ptr(), out.len()) }
}

pub fn read_date(bytes: &[u8]) -> Answer {
    unsafe { sys::skut_read_date(bytes.as_ptr(), bytes.len()) }
}
