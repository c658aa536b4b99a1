//! The static library's functions as they are, for who keeps a table's arrays and state.
//! `bindings/c/skutlaneb.h` says of each what it gives and which numbers refuse it.
//!
//! A slice crosses as a pointer and a length. No number makes a call misread, if every pointer and its length name memory of the caller's own that nothing else frees or
//! changes during the call, aligned as its type asks, and what is written to overlaps nothing else of the same call; a length of 0 needs no memory.

/// Number 0 and the values that a call gives, or the number of its refusal and what that also tells. `byte` and `bit` are the place that 4 to 8 tell: the byte of
/// the input, from 0 on, and the bit of it, from 0, the most significant, to 7, at which the item begins that is not there in full. In every other answer they are 0.
#[repr(C)]
#[derive(Clone, Copy, Debug, Default, PartialEq, Eq)]
pub struct Answer {
    pub number: u32,
    pub a: u64,
    pub b: u64,
    pub c: u64,
    pub byte: u64,
    pub bit: u64,
}

/// How many offers a table has counted since it was made or restored, by what became of each: recorded; skipped, as the second was below the last recorded one
/// (`went_back`), or not below it but less than the interval above it (`too_soon`); or refused with 16 or 17. Those refused with 14, 11, 12, 13 or 31 are not
/// counted. An image does not carry them.
#[repr(C)]
#[derive(Clone, Copy, Debug, Default, PartialEq, Eq)]
pub struct Totals {
    pub recorded: u64,
    pub went_back: u64,
    pub too_soon: u64,
    pub refused: u64,
}

/// A table's state, as calls return it and take it. `has_last` is 0 or 1: a state with any other number there is refused (14), and so is one whose totals add up
/// to more than 2^64-1.
///
/// A state that no call returned may be accepted: one pair (1, 10) and `last` 20, at the default settings, is a good table. An image has the pairs only, so
/// that this one, saved strictly, comes back with `last` 10.
#[repr(C)]
#[derive(Clone, Copy, Debug, PartialEq, Eq)]
pub struct State {
    pub count: usize,
    pub capacity: u32,
    pub has_last: u32,
    pub interval_secs: u64,
    pub last: i64,
    pub totals: Totals,
}

/// How many of the pairs offered were recorded, and how many skipped, by the reason: the second is below the last recorded one (`went_back`), or not below it
/// but less than the interval above it (`too_soon`). A pair that is refused is not counted. All three are 0 where nothing was offered.
#[repr(C)]
#[derive(Clone, Copy, Debug, Default, PartialEq, Eq)]
pub struct Tally {
    pub recorded: usize,
    pub went_back: usize,
    pub too_soon: usize,
}

/// The answer of a call that returns a state.
#[repr(C)]
#[derive(Clone, Copy, Debug, PartialEq, Eq)]
pub struct TableAnswer {
    pub answer: Answer,
    pub tally: Tally,
    pub state: State,
}

/// The answer to a question by sequence: `found` is 1 beside the second, or both are 0, and there is none.
#[repr(C)]
#[derive(Clone, Copy, Debug, Default, PartialEq, Eq)]
pub struct TsAnswer {
    pub found: u64,
    pub second: i64,
}

/// The answer to a question by second: `found` is 1 beside the sequence, or both are 0, and there is none.
#[repr(C)]
#[derive(Clone, Copy, Debug, Default, PartialEq, Eq)]
pub struct SeqAnswer {
    pub found: u64,
    pub seq: u64,
}

/// Up to sixteen questions by sequence: the first `used` places. The answers past them come back as they went in.
#[repr(C)]
#[derive(Clone, Copy, Debug, Default, PartialEq, Eq)]
pub struct TsSheet {
    pub keys: [u64; 16],
    pub answers: [TsAnswer; 16],
    pub used: usize,
}

/// Up to sixteen questions by second.
#[repr(C)]
#[derive(Clone, Copy, Debug, Default, PartialEq, Eq)]
pub struct SeqSheet {
    pub keys: [i64; 16],
    pub answers: [SeqAnswer; 16],
    pub used: usize,
}

/// Number 0 and the sheet with its answers, or the number of a refusal and the sheet as it went in.
#[repr(C)]
#[derive(Clone, Copy, Debug, PartialEq, Eq)]
pub struct TsSheetAnswer {
    pub answer: Answer,
    pub sheet: TsSheet,
}

/// The same of questions by second.
#[repr(C)]
#[derive(Clone, Copy, Debug, PartialEq, Eq)]
pub struct SeqSheetAnswer {
    pub answer: Answer,
    pub sheet: SeqSheet,
}

/// The answer of the lookup that asks the same, and why it is that. `reason` is 0 where the call is refused; 1 exact; 2 rounded up; 3 rounded down; 4 before the
/// first; 5 after the last; 6 table empty. `position` is that of the pair that answers (1, 2, 3). `below` and `above` are the positions of the neighbouring keys of one
/// that is not there (2, 3): where there is such a key, `has_below` or `has_above` is 1. What is not told is 0.
#[repr(C)]
#[derive(Clone, Copy, Debug, Default, PartialEq, Eq)]
pub struct WhyAnswer {
    pub answer: Answer,
    pub reason: u32,
    pub has_below: u32,
    pub has_above: u32,
    pub position: usize,
    pub below: usize,
    pub above: usize,
}

#[link(name = "skutlaneb", kind = "static")]
#[rustfmt::skip]
extern "C" {
    pub fn skut_new() -> TableAnswer;
    pub fn skut_with_config(capacity: u32, interval_secs: u64) -> TableAnswer;
    pub fn skut_check(state: State, seqs: *const u64, n: usize, secs: *const i64, m: usize) -> Answer;
    pub fn skut_offer(state: State, seqs: *mut u64, n: usize, secs: *mut i64, m: usize, seq: u64, sec: i64) -> TableAnswer;
    pub fn skut_offer_pairs(state: State, seqs: *mut u64, n: usize, secs: *mut i64, m: usize, from_seqs: *const u64, i: usize, from_secs: *const i64, j: usize) -> TableAnswer;
    pub fn skut_extend_from(state: State, seqs: *mut u64, n: usize, secs: *mut i64, m: usize, other: State, other_seqs: *const u64, i: usize, other_secs: *const i64, j: usize) -> TableAnswer;
    pub fn skut_find_ts(state: State, seqs: *const u64, n: usize, secs: *const i64, m: usize, seq: u64, round: u32) -> Answer;
    pub fn skut_find_seq(state: State, seqs: *const u64, n: usize, secs: *const i64, m: usize, sec: i64, round: u32) -> Answer;
    pub fn skut_find_ts_16(state: State, seqs: *const u64, n: usize, secs: *const i64, m: usize, sheet: TsSheet, round: u32) -> TsSheetAnswer;
    pub fn skut_find_seq_16(state: State, seqs: *const u64, n: usize, secs: *const i64, m: usize, sheet: SeqSheet, round: u32) -> SeqSheetAnswer;
    pub fn skut_find_ts_each(state: State, seqs: *const u64, n: usize, secs: *const i64, m: usize, keys: *const u64, i: usize, answers: *mut i64, j: usize, found: *mut u8, k: usize, round: u32) -> Answer;
    pub fn skut_find_seq_each(state: State, seqs: *const u64, n: usize, secs: *const i64, m: usize, keys: *const i64, i: usize, answers: *mut u64, j: usize, found: *mut u8, k: usize, round: u32) -> Answer;
    pub fn skut_why_ts(state: State, seqs: *const u64, n: usize, secs: *const i64, m: usize, seq: u64, round: u32) -> WhyAnswer;
    pub fn skut_why_seq(state: State, seqs: *const u64, n: usize, secs: *const i64, m: usize, sec: i64, round: u32) -> WhyAnswer;
    pub fn skut_save(state: State, seqs: *const u64, n: usize, secs: *const i64, m: usize, out: *mut u8, k: usize) -> Answer;
    pub fn skut_save_strict(state: State, seqs: *const u64, n: usize, secs: *const i64, m: usize, out: *mut u8, k: usize) -> Answer;
    pub fn skut_restore(bytes: *const u8, k: usize, seqs: *mut u64, n: usize, secs: *mut i64, m: usize) -> TableAnswer;
    pub fn skut_restore_with_interval(bytes: *const u8, k: usize, seqs: *mut u64, n: usize, secs: *mut i64, m: usize, interval_secs: u64) -> TableAnswer;
    pub fn skut_encoded_len(seqs: *const u64, n: usize, secs: *const i64, m: usize) -> Answer;
    pub fn skut_encode(seqs: *const u64, n: usize, secs: *const i64, m: usize, out: *mut u8, k: usize) -> Answer;
    pub fn skut_encode_strict(seqs: *const u64, n: usize, secs: *const i64, m: usize, out: *mut u8, k: usize) -> Answer;
    pub fn skut_decode(bytes: *const u8, k: usize, seqs: *mut u64, n: usize, secs: *mut i64, m: usize) -> Answer;
    pub fn skut_image_len(bytes: *const u8, k: usize) -> Answer;
    pub fn skut_sign_extend(val: u32, bits: u8) -> Answer;
    pub fn skut_read_bits(s: *const u8, n: usize, byte: usize, bit: u8, width: u8) -> Answer;
    pub fn skut_write_bits(buf: *mut u8, n: usize, byte: usize, bit: u8, value: u64, width: u8) -> Answer;
    pub fn skut_write_date(sec: i64, out: *mut u8, n: usize) -> Answer;
    pub fn skut_read_date(bytes: *const u8, n: usize) -> Answer;
    /// Does nothing: the number in its name is that of the structs' layout, and goes up with each change of one.
    pub fn skut_layout_4();
}

/// Ties the crate to its library: with one whose structs are laid out otherwise a program does not link. (Seen with rustc 1.96; an older one may let the
/// linker drop this.)
#[used]
static LAYOUT: unsafe extern "C" fn() = skut_layout_4;
