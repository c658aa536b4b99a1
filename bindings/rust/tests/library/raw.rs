//! The library's functions as they are: layout, memory, states that no call returned.
use crate::run::Case;
use skutlaneb::sys::{
    self, Answer, SeqAnswer, SeqSheet, SeqSheetAnswer, State, TableAnswer, Tally, Totals, TsAnswer, TsSheet, TsSheetAnswer, WhyAnswer,
};
use skutlaneb::{Second, Seq};
use std::mem::{align_of, offset_of, size_of};
use std::ptr::{null, null_mut};

pub const CASES: &[Case] = &[
    ("the structs are laid out as in C", layout),
    ("the structs of questions are laid out as in C, and a sequence and a second as their numbers", question_layout),
    ("the struct of reasons is laid out as in C", why_layout),
    ("a length of 0 needs no memory", no_memory),
    ("nor does it in the calls with many questions, and in those that tell why", no_question_memory),
    ("a state that does not fit its arrays is refused by 14", forged),
    ("a mark that is neither 0 nor 1 is refused by 14, by every call", neither),
    ("lists of different length are refused by 18, before the table", uneven),
];

// A change here is a change of the number in `skut_layout_4`.
fn layout() {
    assert_eq!((size_of::<Answer>(), offset_of!(Answer, number)), (48, 0));
    assert_eq!((offset_of!(Answer, a), offset_of!(Answer, b), offset_of!(Answer, c)), (8, 16, 24));
    assert_eq!((offset_of!(Answer, byte), offset_of!(Answer, bit)), (32, 40));
    assert_eq!((size_of::<Totals>(), offset_of!(Totals, recorded), offset_of!(Totals, went_back)), (32, 0, 8));
    assert_eq!((offset_of!(Totals, too_soon), offset_of!(Totals, refused)), (16, 24));
    assert_eq!((size_of::<State>(), offset_of!(State, count), offset_of!(State, capacity), offset_of!(State, has_last)), (64, 0, 8, 12));
    assert_eq!((offset_of!(State, interval_secs), offset_of!(State, last), offset_of!(State, totals)), (16, 24, 32));
    assert_eq!((size_of::<Tally>(), offset_of!(Tally, recorded), offset_of!(Tally, went_back), offset_of!(Tally, too_soon)), (24, 0, 8, 16));
    assert_eq!((size_of::<TableAnswer>(), offset_of!(TableAnswer, tally), offset_of!(TableAnswer, state)), (136, 48, 72));
}

fn question_layout() {
    assert_eq!((size_of::<TsAnswer>(), offset_of!(TsAnswer, found), offset_of!(TsAnswer, second)), (16, 0, 8));
    assert_eq!((size_of::<SeqAnswer>(), offset_of!(SeqAnswer, found), offset_of!(SeqAnswer, seq)), (16, 0, 8));
    assert_eq!((size_of::<TsSheet>(), offset_of!(TsSheet, keys), offset_of!(TsSheet, answers), offset_of!(TsSheet, used)), (392, 0, 128, 384));
    assert_eq!((size_of::<SeqSheet>(), offset_of!(SeqSheet, keys), offset_of!(SeqSheet, answers), offset_of!(SeqSheet, used)), (392, 0, 128, 384));
    assert_eq!((size_of::<TsSheetAnswer>(), offset_of!(TsSheetAnswer, answer), offset_of!(TsSheetAnswer, sheet)), (440, 0, 48));
    assert_eq!((size_of::<SeqSheetAnswer>(), offset_of!(SeqSheetAnswer, answer), offset_of!(SeqSheetAnswer, sheet)), (440, 0, 48));
    assert_eq!((size_of::<Seq>(), align_of::<Seq>(), size_of::<Second>(), align_of::<Second>()), (8, align_of::<u64>(), 8, align_of::<i64>()));
}

fn why_layout() {
    assert_eq!((size_of::<WhyAnswer>(), align_of::<WhyAnswer>(), offset_of!(WhyAnswer, answer)), (88, 8, 0));
    assert_eq!((offset_of!(WhyAnswer, reason), offset_of!(WhyAnswer, has_below), offset_of!(WhyAnswer, has_above)), (48, 52, 56));
    assert_eq!((offset_of!(WhyAnswer, position), offset_of!(WhyAnswer, below), offset_of!(WhyAnswer, above)), (64, 72, 80));
}

fn no_memory() {
    unsafe {
        let state = sys::skut_new().state;
        assert_eq!(sys::skut_restore(null(), 0, null_mut(), 0, null_mut(), 0).answer.number, 14);
        for (interval_secs, number) in [(60, 14), (1 << 63, 15)] {
            assert_eq!(sys::skut_restore_with_interval(null(), 0, null_mut(), 0, null_mut(), 0, interval_secs).answer.number, number);
        }
        assert_eq!(sys::skut_check(state, null(), 0, null(), 0).number, 14);
        assert_eq!(sys::skut_decode(null(), 0, null_mut(), 0, null_mut(), 0).number, 1);
        assert_eq!(sys::skut_encoded_len(null(), 0, null(), 0), Answer { a: 13, ..Answer::default() });
        assert_eq!(sys::skut_encode(null(), 0, null(), 0, null_mut(), 0), Answer { number: 21, a: 13, ..Answer::default() });
        assert_eq!(sys::skut_read_bits(null(), 0, 0, 0, 1).number, 24);
        assert_eq!(sys::skut_write_date(0, null_mut(), 0), Answer { number: 21, a: 20, ..Answer::default() });
        assert_eq!(sys::skut_read_date(null(), 0), Answer { number: 25, ..Answer::default() });
    }
}

fn no_question_memory() {
    let (seqs, secs, ts, seq) = ([0u64; 8192], [0i64; 8192], TsSheet::default(), SeqSheet::default());
    let (s, z, refused) = (seqs.as_ptr(), secs.as_ptr(), Answer { number: 14, ..Answer::default() });
    unsafe {
        let state = sys::skut_new().state;
        assert_eq!(sys::skut_find_ts_16(state, null(), 0, null(), 0, ts, 0), TsSheetAnswer { answer: refused, sheet: ts });
        assert_eq!(sys::skut_find_seq_16(state, null(), 0, null(), 0, seq, 0), SeqSheetAnswer { answer: refused, sheet: seq });
        assert_eq!(sys::skut_find_ts_each(state, null(), 0, null(), 0, null(), 0, null_mut(), 0, null_mut(), 0, 0), refused);
        assert_eq!(sys::skut_find_seq_each(state, null(), 0, null(), 0, null(), 0, null_mut(), 0, null_mut(), 0, 0), refused);
        let nothing_told = WhyAnswer { answer: refused, ..WhyAnswer::default() };
        assert_eq!(sys::skut_why_ts(state, null(), 0, null(), 0, 5, 0), nothing_told);
        assert_eq!(sys::skut_why_seq(state, null(), 0, null(), 0, 50, 0), nothing_told);
        assert_eq!(sys::skut_find_ts_each(state, s, 8192, z, 8192, null(), 0, null_mut(), 0, null_mut(), 0, 0), Answer::default());
        assert_eq!(sys::skut_find_seq_each(state, s, 8192, z, 8192, null(), 0, null_mut(), 0, null_mut(), 0, 0), Answer::default());
    }
}

/// Asks one question by each of the calls with many, and why, of a table of four places that is refused so. Neither a sheet nor a list is changed, and no reason told.
fn refused_questions(state: State, seqs: &[u64; 4], secs: &[i64; 4], refused: Answer) {
    let ts = TsSheet { keys: [5; 16], answers: [TsAnswer { found: 7, second: -7 }; 16], used: 1 };
    let seq = SeqSheet { keys: [50; 16], answers: [SeqAnswer { found: 7, seq: 70 }; 16], used: 1 };
    let (mut sec_to, mut seq_to, mut mark) = (-7, 70, 7);
    let (s, z) = (seqs.as_ptr(), secs.as_ptr());
    unsafe {
        assert_eq!(sys::skut_find_ts_16(state, s, 4, z, 4, ts, 0), TsSheetAnswer { answer: refused, sheet: ts }, "{state:?}");
        assert_eq!(sys::skut_find_seq_16(state, s, 4, z, 4, seq, 0), SeqSheetAnswer { answer: refused, sheet: seq }, "{state:?}");
        assert_eq!(sys::skut_find_ts_each(state, s, 4, z, 4, &5, 1, &mut sec_to, 1, &mut mark, 1, 0), refused, "{state:?}");
        assert_eq!(sys::skut_find_seq_each(state, s, 4, z, 4, &50, 1, &mut seq_to, 1, &mut mark, 1, 0), refused, "{state:?}");
        let nothing_told = WhyAnswer { answer: refused, ..WhyAnswer::default() };
        assert_eq!(sys::skut_why_ts(state, s, 4, z, 4, 5, 0), nothing_told, "{state:?}");
        assert_eq!(sys::skut_why_seq(state, s, 4, z, 4, 50, 1), nothing_told, "{state:?}");
    }
    assert_eq!((sec_to, seq_to, mark), (-7, 70, 7));
}

fn forged() {
    let (mut seqs, mut secs) = ([0u64; 4], [0i64; 4]);
    let good = unsafe { sys::skut_with_config(4, 0) }.state;
    let none = unsafe { sys::skut_with_config(8193, 0) }.state;
    let forged = [
        none,
        State { count: 5, has_last: 1, ..good },
        State { count: usize::MAX, has_last: 1, ..good },
        State { count: 1, ..good },
        State { has_last: 1, ..good },
        State { capacity: 5, ..good },
        State { interval_secs: u64::MAX, ..good },
        State { count: 1, has_last: 1, last: i64::MAX, ..good },
        State { totals: Totals { recorded: u64::MAX, refused: 1, ..good.totals }, ..good },
    ];
    for state in forged {
        let offered = unsafe { sys::skut_offer(state, seqs.as_mut_ptr(), 4, secs.as_mut_ptr(), 4, 1, 1) };
        assert_eq!((offered.answer.number, offered.state), (14, none), "{state:?}");
        assert_eq!(unsafe { sys::skut_check(state, seqs.as_ptr(), 4, secs.as_ptr(), 4) }.number, 14);
        refused_questions(state, &seqs, &secs, Answer { number: 14, ..Answer::default() });
    }
    assert_eq!((seqs, secs), ([0; 4], [0; 4]));
    assert_eq!(unsafe { sys::skut_check(good, seqs.as_ptr(), 4, secs.as_ptr(), 4) }.number, 0);
}

fn neither() {
    let (mut seqs, mut secs, mut out) = ([5u64, 0, 0, 0], [50i64, 0, 0, 0], [7u8; 100]);
    let none = unsafe { sys::skut_with_config(8193, 0) }.state;
    let good = State { count: 1, capacity: 4, has_last: 1, interval_secs: 0, last: 50, totals: Totals::default() };
    for has_last in [2, 3, u32::MAX] {
        let (state, number) = (State { has_last, ..good }, 14);
        let (s, z) = (seqs.as_mut_ptr(), secs.as_mut_ptr());
        let given_none = |a| TableAnswer { answer: Answer { number, a, ..Answer::default() }, tally: Tally::default(), state: none };
        let refused = Answer { number, ..Answer::default() };
        unsafe {
            assert_eq!(sys::skut_check(state, s, 4, z, 4), refused);
            assert_eq!(sys::skut_offer(state, s, 4, z, 4, 9, 90), given_none(0));
            assert_eq!(sys::skut_offer_pairs(state, s, 4, z, 4, &9, 1, &90, 1), given_none(0));
            assert_eq!(sys::skut_extend_from(state, s, 4, z, 4, good, &9, 1, &90, 1), given_none(0));
            let other = State { capacity: 1, ..state };
            assert_eq!(sys::skut_extend_from(good, s, 4, z, 4, other, &9, 1, &50, 1), given_none(1));
            assert_eq!(sys::skut_find_ts(state, s, 4, z, 4, 5, 0), refused);
            assert_eq!(sys::skut_find_seq(state, s, 4, z, 4, 50, 0), refused);
            assert_eq!(sys::skut_save(state, s, 4, z, 4, out.as_mut_ptr(), 100), refused);
            assert_eq!(sys::skut_save_strict(state, s, 4, z, 4, out.as_mut_ptr(), 100), refused);
        }
        refused_questions(state, &seqs, &secs, refused);
    }
    assert_eq!((seqs, secs, out), ([5, 0, 0, 0], [50, 0, 0, 0], [7; 100]));
    assert_eq!(unsafe { sys::skut_check(good, seqs.as_ptr(), 4, secs.as_ptr(), 4) }.number, 0);
}

fn uneven() {
    let (mut seqs, mut secs) = ([7u64; 4], [7i64; 4]);
    let (from_seqs, from_secs) = ([1u64, 2], [10i64, 20]);
    let good = unsafe { sys::skut_with_config(4, 0) }.state;
    let none = unsafe { sys::skut_with_config(8193, 0) }.state;
    let refused = TableAnswer { answer: Answer { number: 18, ..Answer::default() }, tally: Tally::default(), state: none };
    for (state, n, m) in [(good, 2, 1), (good, 1, 2), (good, 0, 1), (good, 1, 0), (none, 2, 1), (none, 0, 2)] {
        let (s, z) = (seqs.as_mut_ptr(), secs.as_mut_ptr());
        let told = unsafe { sys::skut_offer_pairs(state, s, 4, z, 4, from_seqs.as_ptr(), n, from_secs.as_ptr(), m) };
        assert_eq!(told, refused, "{n} sequences, {m} seconds");
    }
    let (keys, mut sec_to, mut seq_to, mut marks) = (([5u64; 2], [50i64; 2]), [-7i64; 2], [70u64; 2], [7u8; 2]);
    for (state, k, a, f) in [(good, 2, 1, 1), (good, 1, 2, 1), (good, 1, 1, 2), (good, 0, 1, 1), (none, 1, 0, 1), (none, 1, 1, 0)] {
        let (s, z, marks) = (seqs.as_ptr(), secs.as_ptr(), marks.as_mut_ptr());
        let by_seq = unsafe { sys::skut_find_ts_each(state, s, 4, z, 4, keys.0.as_ptr(), k, sec_to.as_mut_ptr(), a, marks, f, 0) };
        let by_sec = unsafe { sys::skut_find_seq_each(state, s, 4, z, 4, keys.1.as_ptr(), k, seq_to.as_mut_ptr(), a, marks, f, 0) };
        assert_eq!((by_seq, by_sec), (refused.answer, refused.answer), "{k} questions, {a} answers, {f} marks");
    }
    assert_eq!((sec_to, seq_to, marks), ([-7; 2], [70; 2], [7; 2]));
    assert_eq!((seqs, secs), ([7; 4], [7; 4]));
}
