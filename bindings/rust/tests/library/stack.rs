//! The stack that each call takes, against what the header says.
//!
//! A call is made on painted memory, its arguments laid out here by the rules of the System V convention, so that no frame of this program stands there. What
//! is written to is the arguments that go by the stack, the return address and what the library uses: the same in a debug and in a release build.
use crate::run::Case;
use skutlaneb::sys::{self, State, Totals, TsSheetAnswer};
use std::mem::size_of;

pub const CASES: &[Case] = &[
    ("no call needs more stack than the header says", stack),
    ("nor does one that is refused for its interval, its offer, its questions or its date, or where bytes, bits or a list of offers stop", refused),
    ("nor does one that tells why, whatever the reason, and where the table is refused", reasons),
];

const HEADER: &str = include_str!("../../../c/skutlaneb.h");
const PAIRS: usize = 8192;
const ROOM: usize = 80_000;

/// A second whose date is far from 1970, and a date-time with all that one may have.
const LATE: i64 = 253_402_300_799;
const LONG: &str = "2024-02-29T23:59:59.123456789-23:59";

/// A full table, memory for its image or for marks, and memory for answers.
struct Lent {
    state: State,
    seqs: Vec<u64>,
    secs: Vec<i64>,
    bytes: Vec<u8>,
    answers: Vec<u64>,
}

/// Pairs of which no code is one bit, and their image.
fn full() -> Lent {
    let state = State { count: PAIRS, capacity: PAIRS as u32, has_last: 1, interval_secs: 0, last: PAIRS as i64, totals: Totals::default() };
    let seqs: Vec<u64> = (0..PAIRS).map(|i| (i * i % 5 + 10 * i) as u64).collect();
    let secs: Vec<i64> = (0..PAIRS).map(|i| (i - i % 3) as i64).collect();
    let mut bytes = vec![0; ROOM];
    let saved = unsafe { sys::skut_save_strict(state, seqs.as_ptr(), PAIRS, secs.as_ptr(), PAIRS, bytes.as_mut_ptr(), ROOM) };
    assert_eq!(saved.number, 0);
    Lent { state, seqs, secs, bytes, answers: vec![0; QUESTIONS.len()] }
}

/// An argument: a number or a pointer, which goes by a register while there is one, or a state or a sheet, which go by the stack.
enum Arg {
    Word(u64),
    Table(State),
    Questions(Sheet),
}
use Arg::{Questions, Table, Word};

/// A sheet of either kind: sixteen keys, sixteen answers of two words, and how many are used.
type Sheet = [u64; 49];

/// The questions of a list.
static QUESTIONS: [u64; 17] = [3; 17];

type Call = (&'static str, *const (), Vec<Arg>);

/// The calls with many questions: so many on the sheets, and with room for so many answers in the lists.
fn questions(l: &mut Lent, state: State, used: u64, answers: u64) -> Vec<Call> {
    let (n, k) = (PAIRS as u64, QUESTIONS.len() as u64);
    let arrays = [l.seqs.as_mut_ptr() as u64, n, l.secs.as_mut_ptr() as u64, n];
    let list = [QUESTIONS.as_ptr() as u64, k, l.answers.as_mut_ptr() as u64, answers, l.bytes.as_mut_ptr() as u64, k, 0];
    let sheet: Sheet = std::array::from_fn(|i| if i == 48 { used } else { 3 * i as u64 });
    let table = |more: Vec<Arg>| std::iter::once(Table(state)).chain(arrays.map(Word)).chain(more).collect::<Vec<_>>();
    vec![
        ("skut_find_ts_16", sys::skut_find_ts_16 as *const (), table(vec![Questions(sheet), Word(0)])),
        ("skut_find_seq_16", sys::skut_find_seq_16 as *const (), table(vec![Questions(sheet), Word(0)])),
        ("skut_find_ts_each", sys::skut_find_ts_each as *const (), table(list.map(Word).into())),
        ("skut_find_seq_each", sys::skut_find_seq_each as *const (), table(list.map(Word).into())),
    ]
}

/// Each call where it does all of its work.
fn calls(l: &mut Lent) -> Vec<Call> {
    let (n, room, state) = (PAIRS as u64, ROOM as u64, l.state);
    let (s, z, b) = (l.seqs.as_mut_ptr() as u64, l.secs.as_mut_ptr() as u64, l.bytes.as_mut_ptr() as u64);
    let (one_seq, one_sec) = (&90_000u64 as *const u64 as u64, &9000i64 as *const i64 as u64);
    let words = |words: &[u64]| words.iter().map(|&word| Word(word)).collect::<Vec<_>>();
    let arrays = |more: &[u64]| words(&[&[s, n, z, n], more].concat());
    let table = |more: &[u64]| std::iter::once(Table(state)).chain(arrays(more)).collect::<Vec<_>>();
    let other = State { count: 1, capacity: 1, has_last: 1, interval_secs: 0, last: 9000, totals: Totals::default() };
    let extended = table(&[]).into_iter().chain([Table(other)]).chain(words(&[one_seq, 1, one_sec, 1])).collect();
    let mut calls = questions(l, state, 16, QUESTIONS.len() as u64);
    calls.extend([
        ("skut_new", sys::skut_new as *const (), words(&[])),
        ("skut_with_config", sys::skut_with_config as *const (), words(&[4, 0])),
        ("skut_check", sys::skut_check as *const (), table(&[])),
        ("skut_offer", sys::skut_offer as *const (), table(&[90_000, 9000])),
        ("skut_offer_pairs", sys::skut_offer_pairs as *const (), table(&[one_seq, 1, one_sec, 1])),
        ("skut_extend_from", sys::skut_extend_from as *const (), extended),
        ("skut_find_ts", sys::skut_find_ts as *const (), table(&[3, 0])),
        ("skut_find_seq", sys::skut_find_seq as *const (), table(&[3, 0])),
        ("skut_why_ts", sys::skut_why_ts as *const (), table(&[3, 0])),
        ("skut_why_seq", sys::skut_why_seq as *const (), table(&[3, 0])),
        ("skut_save", sys::skut_save as *const (), table(&[b, room])),
        ("skut_save_strict", sys::skut_save_strict as *const (), table(&[b, room])),
        ("skut_restore", sys::skut_restore as *const (), words(&[b, room, s, n, z, n])),
        ("skut_restore_with_interval", sys::skut_restore_with_interval as *const (), words(&[b, room, s, n, z, n, 60])),
        ("skut_encoded_len", sys::skut_encoded_len as *const (), arrays(&[])),
        ("skut_encode", sys::skut_encode as *const (), arrays(&[b, room])),
        ("skut_encode_strict", sys::skut_encode_strict as *const (), arrays(&[b, room])),
        ("skut_decode", sys::skut_decode as *const (), words(&[b, room, s, n, z, n])),
        ("skut_image_len", sys::skut_image_len as *const (), words(&[b, room])),
        ("skut_sign_extend", sys::skut_sign_extend as *const (), words(&[64, 7])),
        ("skut_read_bits", sys::skut_read_bits as *const (), words(&[b, room, 3, 3, 64])),
        ("skut_write_bits", sys::skut_write_bits as *const (), words(&[b, room, 3, 3, 7, 64])),
        ("skut_write_date", sys::skut_write_date as *const (), words(&[LATE as u64, b, room])),
        ("skut_read_date", sys::skut_read_date as *const (), words(&[LONG.as_ptr() as u64, LONG.len() as u64])),
    ]);
    calls
}

/// What goes by the five registers that the place of the answer leaves, and what goes by the stack.
fn laid_out(args: &[Arg]) -> ([u64; 5], Vec<u64>) {
    let (mut registers, mut used, mut pushed) = ([0; 5], 0, Vec::new());
    for arg in args {
        match *arg {
            Word(word) if used < registers.len() => {
                registers[used] = word;
                used += 1;
            }
            Word(word) => pushed.push(word),
            Questions(words) => pushed.extend(words),
            Table(s) => {
                pushed.extend([s.count as u64, u64::from(s.capacity) | u64::from(s.has_last) << 32, s.interval_secs, s.last as u64]);
                pushed.extend([s.totals.recorded, s.totals.went_back, s.totals.too_soon, s.totals.refused]);
            }
        }
    }
    (registers, pushed)
}

/// The number that a call answers, and the bytes of stack that it writes to.
fn stack_of(&(_, function, ref args): &Call) -> (u32, usize) {
    const STACK: usize = 256 * 1024;
    let (registers, pushed) = laid_out(args);
    let mut painted = vec![0xA5A5_A5A5_A5A5_A5A5u64; STACK / 8];
    // The convention wants the arguments at a multiple of 16.
    let skipped = (painted.as_ptr() as usize / 8 + painted.len() - pushed.len()) % 2;
    let at = painted.len() - pushed.len() - skipped;
    painted[at..at + pushed.len()].copy_from_slice(&pushed);
    // No answer is longer than that of a sheet.
    let mut answer = [u64::MAX; size_of::<TsSheetAnswer>() / 8];
    unsafe {
        std::arch::asm!(
            "mov r12, rsp",
            "mov rsp, {at}",
            "call {function}",
            "mov rsp, r12",
            at = in(reg) painted.as_mut_ptr().add(at),
            function = in(reg) function,
            in("rdi") answer.as_mut_ptr(),
            in("rsi") registers[0],
            in("rdx") registers[1],
            in("rcx") registers[2],
            in("r8") registers[3],
            in("r9") registers[4],
            out("r12") _,
            clobber_abi("C"),
        );
    }
    let untouched = painted.iter().flat_map(|word| word.to_le_bytes()).take_while(|&byte| byte == 0xA5).count();
    (answer[0] as u32, 8 * (at + pushed.len()) - untouched)
}

/// The bytes of stack that the header says a call needs.
fn declared(name: &str) -> usize {
    let before = HEADER.split(&format!(" {name}(")).next().expect("split gives a part");
    let said = before.rsplit("Stack: ").next().expect("split gives a part");
    said.split(' ').next().and_then(|bytes| bytes.replace(',', "").parse().ok()).expect("the header says how much stack a call needs")
}

fn stack() {
    let number = calls(&mut full()).len();
    for index in 0..number {
        let mut lent = full();
        let call = &calls(&mut lent)[index];
        let ((answered, used), most) = (stack_of(call), declared(call.0));
        println!("   {}: {used} of {most} bytes of stack", call.0);
        // A refused call may have done less than the others.
        assert_eq!(answered, 0, "{} is refused", call.0);
        assert!(used <= most && most <= 256 * 1024);
    }
    assert_eq!(HEADER.matches("Stack: ").count(), number);
}

/// Questions that are too many for a sheet, lists of different length, and questions to a bad table.
fn refused_questions(lent: &mut Lent) -> Vec<(u32, Call)> {
    let (state, bad) = (lent.state, State { has_last: 2, ..lent.state });
    let too_many = [35, 35, 18, 18].into_iter().zip(questions(lent, state, 17, 16));
    too_many.chain([14; 4].into_iter().zip(questions(lent, bad, 16, 17))).collect()
}

fn refused() {
    // Nine pairs of zeros up to the seconds' codes: the header, the sequences with a byte of codes, and the seconds' count and first value.
    let start = [&[1, 9, 0, 0, 0][..], &[0, 0, 0, 9, 0, 0, 0, 0, 0, 0, 0, 0, 0], &[0, 0, 0, 9, 0, 0, 0, 0, 0, 0, 0, 0]].concat();
    let with = |codes: &[u8]| [&start, codes].concat();
    let inputs = [(4, start[..20].to_vec()), (5, start[..25].to_vec()), (6, start.clone()), (7, with(&[1])), (8, with(&[15, 0]))];
    let (mut lent, n) = (full(), PAIRS as u64);
    let (s, z) = (lent.seqs.as_mut_ptr() as u64, lent.secs.as_mut_ptr() as u64);
    let words = |words: &[u64]| words.iter().map(|&word| Word(word)).collect::<Vec<_>>();
    let mut calls: Vec<(u32, Call)> = Vec::new();
    for (number, bytes) in &inputs {
        let (b, k) = (bytes.as_ptr() as u64, bytes.len() as u64);
        calls.push((*number, ("skut_decode", sys::skut_decode as *const (), words(&[b, k, s, n, z, n]))));
        calls.push((*number, ("skut_image_len", sys::skut_image_len as *const (), words(&[b, k]))));
        calls.push((*number, ("skut_restore", sys::skut_restore as *const (), words(&[b, k, s, n, z, n]))));
        calls.push((*number, ("skut_restore_with_interval", sys::skut_restore_with_interval as *const (), words(&[b, k, s, n, z, n, 60]))));
        calls.push((24, ("skut_read_bits", sys::skut_read_bits as *const (), words(&[b, k, k - 1, 3, 64]))));
    }
    calls.push((15, ("skut_restore_with_interval", sys::skut_restore_with_interval as *const (), words(&[s, 0, s, n, z, n, u64::MAX]))));
    // Offers that drop, that are outside the years, and to a table that has counted 2^64-1.
    let (low_seq, late_sec, outside) = (3u64, 9000i64, i64::MAX);
    let other = State { count: 1, capacity: 1, has_last: 1, interval_secs: 0, last: 9000, totals: Totals::default() };
    let counted = State { totals: Totals { refused: u64::MAX, ..Totals::default() }, ..lent.state };
    for (number, state, sec) in [(17, lent.state, &late_sec), (16, lent.state, &outside), (31, counted, &late_sec)] {
        let one = [&low_seq as *const u64 as u64, 1, sec as *const i64 as u64, 1];
        let table = || std::iter::once(Table(state)).chain(words(&[s, n, z, n]));
        calls.push((number, ("skut_offer", sys::skut_offer as *const (), table().chain(words(&[low_seq, *sec as u64])).collect())));
        calls.push((number, ("skut_offer_pairs", sys::skut_offer_pairs as *const (), table().chain(words(&one)).collect())));
        // No good table has a second outside the years.
        if number != 16 {
            let extended = table().chain([Table(other)]).chain(words(&one)).collect();
            calls.push((number, ("skut_extend_from", sys::skut_extend_from as *const (), extended)));
        }
    }
    calls.extend(refused_questions(&mut lent));
    let date = |text: &'static str| ("skut_read_date", sys::skut_read_date as *const (), words(&[text.as_ptr() as u64, text.len() as u64]));
    calls.push((25, date("2024-02-29T23:59:59.123456789-23:5x")));
    calls.push((26, date("2023-02-29T23:59:59.123456789-23:59")));
    calls.push((27, date("9999-12-31T23:59:59.123456789-23:59")));
    for (number, sec) in [(27, i64::MAX), (21, LATE)] {
        calls.push((number, ("skut_write_date", sys::skut_write_date as *const (), words(&[sec as u64, s, 19]))));
    }
    for (number, call) in &calls {
        let ((answered, used), most) = (stack_of(call), declared(call.0));
        println!("   {}, refused {number}: {used} of {most} bytes of stack", call.0);
        assert_eq!(answered, *number, "{}", call.0);
        assert!(used <= most);
    }
}

/// Each reason in a full table and in one that is searched by a loop; an empty table; and bad ones.
fn reasons() {
    let mut most_used = [0; 2];
    let mut asked = |number: u32, lent: &Lent, state: State, key: u64, round: u64| {
        let words = [lent.seqs.as_ptr() as u64, PAIRS as u64, lent.secs.as_ptr() as u64, PAIRS as u64, key, round];
        let args = || std::iter::once(Table(state)).chain(words.map(Word)).collect();
        let calls = [("skut_why_ts", sys::skut_why_ts as *const (), args()), ("skut_why_seq", sys::skut_why_seq as *const (), args())];
        for (call, most_used) in calls.iter().zip(&mut most_used) {
            let ((answered, used), most) = (stack_of(call), declared(call.0));
            assert_eq!(answered, number, "{}", call.0);
            assert!(used <= most, "{}, {key}, round {round}: {used} of {most} bytes of stack", call.0);
            *most_used = used.max(*most_used);
        }
    };
    let mut lent = full();
    lent.seqs.iter_mut().for_each(|seq| *seq += 2); // so that something is below the first
    let (few, none, neither) = (State { count: 9, ..lent.state }, State { count: 0, has_last: 0, ..lent.state }, State { has_last: 2, ..lent.state });
    // Keys below the first, equal to one, between two, and above the last. The greatest is a second below 0.
    for key in [0, 1, 2, 3, 13, 14, 81_920, 1 << 40, u64::MAX] {
        for round in [0, 1] {
            for (number, state) in [(0, lent.state), (0, few), (0, none), (14, neither)] {
                asked(number, &lent, state, key, round);
            }
        }
    }
    for (number, at, seq, sec) in [(11, PAIRS - 1, 0, 8190), (12, PAIRS - 1, 1 << 40, 0), (13, 0, 0, i64::MIN)] {
        let mut bad = full();
        (bad.seqs[at], bad.secs[at]) = (seq, sec);
        for round in [0, 1] {
            asked(number, &bad, bad.state, 3, round);
        }
    }
    println!("   skut_why_ts, skut_why_seq, whatever is asked: at most {} and {} bytes of stack", most_used[0], most_used[1]);
}
