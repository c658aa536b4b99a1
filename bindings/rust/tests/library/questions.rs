//! Many questions to one table at once, on sheets and in lists: each is answered as the single lookup answers it.
use crate::chance::Chance;
use crate::run::Case;
use crate::tables::{pair, table};
use skutlaneb::sys::{self, Answer, SeqAnswer, SeqSheetAnswer, State, TsAnswer, TsSheetAnswer};
use skutlaneb::FindOption::{self, RoundDown, RoundUp};
use skutlaneb::{Error, Second, Seq, SeqSheet, SequenceTracker, Sheet, TrackedSeq, TsSheet};
use std::fmt::Debug;

pub const CASES: &[Case] = &[
    ("a sheet is answered as its questions one by one, and its other places stay as they were", sheets),
    ("a sheet is made of up to sixteen questions", made),
    ("a sheet of more than sixteen questions is refused by 35", too_many),
    ("a list is answered as its questions one by one, at any length", lists),
    ("a list is answered as a plain search answers it, about the sizes at which the library's search changes", sizes),
    ("a list is answered to memory of the caller's, whatever that holds", into),
    ("lists of different length are refused by 18, and stay as they were", uneven),
    ("raw sheets: marks and values that nobody asks for come back bit by bit", raw_sheets),
    ("raw lists: whatever stands there, a mark becomes 0 or 1, and nothing past the end is written to", raw_lists),
    ("raw sheets of more than sixteen questions are refused by 35, before a bad table, and come back as they went in", raw_too_many),
    ("raw sheets and lists of a bad table are refused by its number, and stay as they were", raw_bad),
    ("raw lists of different length are refused by 18, before a bad table, and stay as they were", raw_uneven),
];

/// A table with no pair, with one, with equal keys of both kinds, and full ones, of which one has equal keys only.
fn tables() -> Vec<SequenceTracker> {
    let full = |pairs: &dyn Fn(u64) -> (u64, i64)| {
        let mut tracker = table(8192, 0, &[]);
        tracker.insert_all(&(0..8192).map(|i| TrackedSeq::from(pairs(i))).collect::<Vec<_>>()).unwrap();
        assert_eq!(tracker.len(), 8192);
        tracker
    };
    vec![
        SequenceTracker::new(),
        table(1, 0, &[(7, -3)]),
        table(8, 0, &[(0, -9), (0, -9), (5, -9), (5, 4), (5, 4), (u64::MAX, 4), (u64::MAX, 8)]),
        full(&|i| (3 * i + i % 2, 5 * i as i64 - 20_000)),
        full(&|_| (7, -3)),
    ]
}

/// Sixteen times four keys of each kind: the ends of the numbers, and what stands in the table or next to that.
fn keys_for(tracker: &SequenceTracker) -> (Vec<Seq>, Vec<Second>) {
    let mut chance = Chance(0x9E37_79B9_7F4A_7C15);
    let pairs: Vec<TrackedSeq> = tracker.pairs().chain([pair(9, 9)]).collect();
    let mut seqs = vec![Seq(u64::MAX), Seq(0), Seq(1 << 63), Seq(1), Seq(u64::MAX - 1)];
    let mut secs = vec![Second(i64::MAX), Second(i64::MIN), Second(0), Second(-1), Second(i64::MIN + 1)];
    while seqs.len() < 64 {
        let (near, step) = (pairs[chance.below(pairs.len() as u64) as usize], chance.below(3) as i64 - 1);
        seqs.push(Seq(near.seq.0.wrapping_add(step as u64)));
        secs.push(Second(near.ts.0 + step));
    }
    (seqs, secs)
}

/// The library searches a table of 4,096 pairs and more without a loop, and a smaller one by a loop. Each third sequence number stands twice here, and so does
/// each second; every number from below the first to above the last is asked for.
fn sizes() {
    for n in [4094, 4095, 4096, 4097, 6143, 6144, 8190, 8191, 8192] {
        let pairs: Vec<TrackedSeq> = (0..n).map(|i: u64| TrackedSeq::from((10 + 2 * (i - i / 3), i as i64 / 2 * 3 - 6000))).collect();
        let mut tracker = table(8192, 0, &[]);
        tracker.insert_all(&pairs).unwrap();
        assert_eq!(tracker.pairs().collect::<Vec<_>>(), pairs);
        let seqs: Vec<Seq> = (8..2 * n + 12).chain([0, u64::MAX]).map(Seq).collect();
        let secs: Vec<Second> = (-6003..3 * n as i64 / 2 - 5990).chain([i64::MIN, i64::MAX]).map(Second).collect();
        for opt in [RoundUp, RoundDown] {
            // How many pairs are below the one asked for, and how many are not above it.
            let at = |below: usize, not_above: usize| match opt {
                RoundUp => pairs.get(below),
                RoundDown => not_above.checked_sub(1).map(|last| &pairs[last]),
            };
            let by_seq = seqs.iter().map(|q| at(pairs.partition_point(|p| p.seq < *q), pairs.partition_point(|p| p.seq <= *q)).map(|p| p.ts));
            assert_eq!(tracker.find_ts_each(&seqs, opt).unwrap(), by_seq.collect::<Vec<_>>());
            let by_second = secs.iter().map(|s| at(pairs.partition_point(|p| p.ts < *s), pairs.partition_point(|p| p.ts <= *s)).map(|p| p.seq));
            assert_eq!(tracker.find_seq_each(&secs, opt).unwrap(), by_second.collect::<Vec<_>>());
        }
    }
}

/// What each key is answered by itself.
type Single<K, A> = (Vec<K>, Vec<Option<A>>);

/// For each table and rounding the keys of both kinds with their answers.
fn each_table(asked: impl Fn(&SequenceTracker, FindOption, Single<Seq, Second>, Single<Second, Seq>)) {
    for tracker in tables() {
        for opt in [RoundUp, RoundDown] {
            let (seqs, secs) = keys_for(&tracker);
            let by_seq = seqs.iter().map(|&seq| tracker.find_ts(seq, opt).unwrap()).collect();
            let by_sec = secs.iter().map(|&sec| tracker.find_seq(sec, opt).unwrap()).collect();
            asked(&tracker, opt, (seqs, by_seq), (secs, by_sec));
        }
    }
}

/// Sheets of sixteen keys with each number of them used, whose answers held something before.
fn as_single<K, A, C>(single: &Single<K, A>, held: [Option<A>; 16], call: C)
where
    K: Copy + PartialEq + Debug,
    A: Copy + PartialEq + Debug,
    C: Fn(Sheet<K, A>) -> Result<Sheet<K, A>, Error>,
{
    for (keys, due) in single.0.chunks(16).zip(single.1.chunks(16)) {
        for used in 0..=16 {
            let sheet = Sheet { keys: keys.try_into().unwrap(), answers: held, used };
            let mut answered = sheet;
            answered.answers[..used].copy_from_slice(&due[..used]);
            assert_eq!(call(sheet), Ok(answered));
        }
    }
}

fn sheets() {
    each_table(|tracker, opt, by_seq, by_sec| {
        // Before, no place has an answer, or every one, or two of three; and it is one that no table gives.
        for held in [[None; 16], std::array::from_fn(Some), std::array::from_fn(|i| (i % 3 != 0).then_some(i))] {
            let seconds = held.map(|place| place.map(|i| Second(i64::MIN + i as i64)));
            as_single(&by_seq, seconds, |sheet| tracker.find_ts_16(sheet, opt));
            let seqs = held.map(|place| place.map(|i| Seq((1 << 62) + i as u64)));
            as_single(&by_sec, seqs, |sheet| tracker.find_seq_16(sheet, opt));
        }
    });
}

fn made() {
    let keys: Vec<u64> = (1..=17).collect();
    let (seqs, secs): (Vec<Seq>, Vec<Second>) = keys.iter().map(|&key| (Seq(key), Second(-(key as i64)))).unzip();
    for used in 0..=16 {
        let key = |i: usize| if i < used { keys[i] } else { 0 };
        let (of_seqs, of_secs) = (std::array::from_fn(|i| Seq(key(i))), std::array::from_fn(|i| Second(-(key(i) as i64))));
        assert_eq!(TsSheet::of(&seqs[..used]), Ok(Sheet { keys: of_seqs, answers: [None; 16], used }));
        assert_eq!(SeqSheet::of(&secs[..used]), Ok(Sheet { keys: of_secs, answers: [None; 16], used }));
    }
    assert_eq!(TsSheet::of(&seqs), Err(Error::TooManyQuestions));
    assert_eq!(SeqSheet::of(&secs), Err(Error::TooManyQuestions));
    assert_eq!(TsSheet::of(&vec![Seq(0); 1000]).map_err(|refused| refused.number()), Err(35));
}

fn too_many() {
    for tracker in tables() {
        for used in [17, 1 << 32, usize::MAX] {
            let sheet = TsSheet { used, ..TsSheet::of(&[Seq(7)]).unwrap() };
            assert_eq!(tracker.find_ts_16(sheet, RoundUp), Err(Error::TooManyQuestions));
            let sheet = SeqSheet { used, ..SeqSheet::of(&[Second(7)]).unwrap() };
            assert_eq!(tracker.find_seq_16(sheet, RoundDown), Err(Error::TooManyQuestions));
        }
    }
}

/// So many values: these, over and over.
fn cycled<T: Copy>(values: &[T], length: usize) -> Vec<T> {
    values.iter().copied().cycle().take(length).collect()
}

fn repeated<K: Copy, A: Copy>(single: &Single<K, A>, length: usize) -> Single<K, A> {
    (cycled(&single.0, length), cycled(&single.1, length))
}

const LENGTHS: [usize; 6] = [0, 1, 2, 16, 17, 1000];

fn lists() {
    each_table(|tracker, opt, by_seq, by_sec| {
        for length in LENGTHS {
            let (keys, due) = repeated(&by_seq, length);
            assert_eq!(tracker.find_ts_each(&keys, opt), Ok(due));
            let (keys, due) = repeated(&by_sec, length);
            assert_eq!(tracker.find_seq_each(&keys, opt), Ok(due));
        }
    });
}

/// What stands in both slices where these are the answers.
fn stand<A: Copy>(due: &[Option<A>], nothing: A) -> (Vec<A>, Vec<bool>) {
    due.iter().map(|answer| (answer.unwrap_or(nothing), answer.is_some())).unzip()
}

fn into() {
    each_table(|tracker, opt, by_seq, by_sec| {
        for (length, mark) in LENGTHS.into_iter().flat_map(|length| [(length, false), (length, true)]) {
            let ((keys, due), mut found) = (repeated(&by_seq, length), vec![mark; length]);
            let mut answers = vec![Second(i64::MIN); length];
            assert_eq!(tracker.find_ts_into(&keys, &mut answers, &mut found, opt), Ok(()));
            assert_eq!((answers, found), stand(&due, Second(0)));
            let ((keys, due), mut found) = (repeated(&by_sec, length), vec![mark; length]);
            let mut answers = vec![Seq(1 << 62); length];
            assert_eq!(tracker.find_seq_into(&keys, &mut answers, &mut found, opt), Ok(()));
            assert_eq!((answers, found), stand(&due, Seq(0)));
        }
    });
}

/// Three lengths that are not one.
const UNEVEN: [[usize; 3]; 10] = [[2, 1, 1], [1, 2, 1], [1, 1, 2], [0, 1, 1], [1, 0, 1], [1, 1, 0], [0, 0, 1], [0, 1, 0], [1, 0, 0], [2, 0, 1]];

fn uneven() {
    let tracker = table(8, 0, &[(5, 50), (6, 60)]);
    let (seqs, secs) = ([Seq(5), Seq(6)], [Second(50), Second(60)]);
    let (mut to_secs, mut to_seqs, mut found) = ([Second(-7); 2], [Seq(7); 2], [true, false]);
    for [k, a, f] in UNEVEN {
        assert_eq!(tracker.find_ts_into(&seqs[..k], &mut to_secs[..a], &mut found[..f], RoundUp), Err(Error::LengthsDiffer));
        assert_eq!(tracker.find_seq_into(&secs[..k], &mut to_seqs[..a], &mut found[..f], RoundUp), Err(Error::LengthsDiffer));
    }
    assert_eq!((to_secs, to_seqs, found), ([Second(-7); 2], [Seq(7); 2], [true, false]));
}

/// A table as the library has it.
#[derive(Clone, Copy)]
struct Raw<'a> {
    state: State,
    seqs: &'a [u64],
    secs: &'a [i64],
}

/// What a list leaves: the answer, the answers and the marks.
type Left<A> = (Answer, Vec<A>, Vec<u8>);

impl Raw<'_> {
    fn ts_16(self, sheet: sys::TsSheet, round: u32) -> TsSheetAnswer {
        unsafe { sys::skut_find_ts_16(self.state, self.seqs.as_ptr(), self.seqs.len(), self.secs.as_ptr(), self.secs.len(), sheet, round) }
    }

    fn seq_16(self, sheet: sys::SeqSheet, round: u32) -> SeqSheetAnswer {
        unsafe { sys::skut_find_seq_16(self.state, self.seqs.as_ptr(), self.seqs.len(), self.secs.as_ptr(), self.secs.len(), sheet, round) }
    }

    /// With these lengths of the keys, of answers that hold -7 and of marks that hold 7, in memory of two places more.
    fn ts_each(self, keys: &[u64], [k, a, f]: [usize; 3], round: u32) -> Left<i64> {
        let (mut answers, mut found) = (vec![-7; a + 2], vec![7; f + 2]);
        let (s, n, z, m) = (self.seqs.as_ptr(), self.seqs.len(), self.secs.as_ptr(), self.secs.len());
        let (to, marks) = (answers.as_mut_ptr(), found.as_mut_ptr());
        assert!(k <= keys.len());
        let told = unsafe { sys::skut_find_ts_each(self.state, s, n, z, m, keys.as_ptr(), k, to, a, marks, f, round) };
        (told, answers, found)
    }

    fn seq_each(self, keys: &[i64], [k, a, f]: [usize; 3], round: u32) -> Left<u64> {
        let (mut answers, mut found) = (vec![70; a + 2], vec![7; f + 2]);
        let (s, n, z, m) = (self.seqs.as_ptr(), self.seqs.len(), self.secs.as_ptr(), self.secs.len());
        let (to, marks) = (answers.as_mut_ptr(), found.as_mut_ptr());
        assert!(k <= keys.len());
        let told = unsafe { sys::skut_find_seq_each(self.state, s, n, z, m, keys.as_ptr(), k, to, a, marks, f, round) };
        (told, answers, found)
    }
}

/// Four pairs, of which two have one sequence and two one second.
const SEQS: [u64; 5] = [5, 5, 7, 9, 0];
const SECS: [i64; 5] = [10, 20, 20, 30, 0];

fn good() -> Raw<'static> {
    let state = State { count: 4, capacity: 5, has_last: 1, interval_secs: 0, last: 30, totals: sys::Totals::default() };
    let raw = Raw { state, seqs: &SEQS, secs: &SECS };
    assert_eq!(unsafe { sys::skut_check(state, SEQS.as_ptr(), 5, SECS.as_ptr(), 5) }, Answer::default());
    raw
}

/// What is asked for, by sequence and by second.
const ASKED_SEQS: [u64; 16] = [5, 4, 6, 9, 10, 0, u64::MAX, 7, 8, 5, 5, 1 << 63, 9, 2, 6, 7];
const ASKED_SECS: [i64; 16] = [20, 9, 15, 30, 31, i64::MIN, i64::MAX, 10, 11, 20, -1, 1 << 40, 30, 29, 21, 10];

/// 0 rounds up, and any other number down.
const ROUNDS: [u32; 4] = [0, 1, 2, u32::MAX];

fn ts_due(raw: Raw, key: u64, round: u32) -> TsAnswer {
    let one = unsafe { sys::skut_find_ts(raw.state, raw.seqs.as_ptr(), raw.seqs.len(), raw.secs.as_ptr(), raw.secs.len(), key, round) };
    assert_eq!(one.number, 0);
    TsAnswer { found: one.a, second: one.b as i64 }
}

fn seq_due(raw: Raw, key: i64, round: u32) -> SeqAnswer {
    let one = unsafe { sys::skut_find_seq(raw.state, raw.seqs.as_ptr(), raw.seqs.len(), raw.secs.as_ptr(), raw.secs.len(), key, round) };
    assert_eq!(one.number, 0);
    SeqAnswer { found: one.a, seq: one.b }
}

/// Sheets whose answers hold what no call writes.
fn dirty(used: usize) -> (sys::TsSheet, sys::SeqSheet) {
    let marks: [u64; 16] = std::array::from_fn(|i| [7, u64::MAX, 0, 1][i % 4] ^ (i as u64) << 32);
    let ts = sys::TsSheet { keys: ASKED_SEQS, answers: marks.map(|found| TsAnswer { found, second: !found as i64 }), used };
    let seq = sys::SeqSheet { keys: ASKED_SECS, answers: marks.map(|found| SeqAnswer { found, seq: !found }), used };
    (ts, seq)
}

fn raw_sheets() {
    let raw = good();
    for round in ROUNDS {
        for used in 0..=16 {
            let (ts, seq) = dirty(used);
            let (mut by_seq, mut by_sec) = (ts, seq);
            for i in 0..used {
                by_seq.answers[i] = ts_due(raw, ts.keys[i], round);
                by_sec.answers[i] = seq_due(raw, seq.keys[i], round);
            }
            assert_eq!(raw.ts_16(ts, round), TsSheetAnswer { answer: Answer::default(), sheet: by_seq });
            assert_eq!(raw.seq_16(seq, round), SeqSheetAnswer { answer: Answer::default(), sheet: by_sec });
        }
    }
    // One of them by hand: rounded down, 5 is answered by the last of its pairs, 4 by nothing and 6 as 5.
    let answers = raw.ts_16(dirty(3).0, 1).sheet.answers;
    assert_eq!(answers[..3], [(1, 20), (0, 0), (1, 20)].map(|(found, second)| TsAnswer { found, second }));
    let answers = raw.seq_16(dirty(3).1, 0).sheet.answers;
    assert_eq!(answers[..3], [(1, 5), (1, 5), (1, 5)].map(|(found, seq)| SeqAnswer { found, seq }));
}

fn raw_lists() {
    let raw = good();
    for round in ROUNDS {
        for length in LENGTHS {
            let (seqs, secs) = (cycled(&ASKED_SEQS, length), cycled(&ASKED_SECS, length));
            let (mut answers, mut found): (Vec<i64>, Vec<u8>) =
                seqs.iter().map(|&key| ts_due(raw, key, round)).map(|due| (due.second, due.found as u8)).unzip();
            answers.extend([-7; 2]);
            found.extend([7; 2]);
            assert_eq!(raw.ts_each(&seqs, [length; 3], round), (Answer::default(), answers, found));
            let (mut answers, mut found): (Vec<u64>, Vec<u8>) =
                secs.iter().map(|&key| seq_due(raw, key, round)).map(|due| (due.seq, due.found as u8)).unzip();
            answers.extend([70; 2]);
            found.extend([7; 2]);
            assert_eq!(raw.seq_each(&secs, [length; 3], round), (Answer::default(), answers, found));
        }
    }
}

/// Tables that are refused by 14, 11, 12 and 13, with what is told.
fn bad() -> Vec<(Raw<'static>, Answer)> {
    let good = good();
    let told = |number, a| Answer { number, a, ..Answer::default() };
    let state = |has_last| Raw { state: State { has_last, ..good.state }, ..good };
    vec![
        (state(0), told(14, 0)),
        (state(2), told(14, 0)),
        (Raw { state: State { count: usize::MAX, ..good.state }, ..good }, told(14, 0)),
        (Raw { seqs: &SEQS[..4], ..good }, told(14, 0)),
        (Raw { seqs: &[5, 6, 5, 9, 0], ..good }, told(11, 2)),
        (Raw { secs: &[10, 9, 20, 30, 0], ..good }, told(12, 1)),
        (Raw { secs: &[i64::MIN, 9, 20, 30, 0], ..good }, told(13, 0)),
    ]
}

fn raw_too_many() {
    let answer = Answer { number: 35, ..Answer::default() };
    for raw in bad().into_iter().map(|(raw, _)| raw).chain([good()]) {
        for used in [17, 18, 1 << 32, usize::MAX] {
            let (ts, seq) = dirty(used);
            assert_eq!(raw.ts_16(ts, 0), TsSheetAnswer { answer, sheet: ts });
            assert_eq!(raw.seq_16(seq, 1), SeqSheetAnswer { answer, sheet: seq });
        }
    }
}

fn raw_bad() {
    for (raw, told) in bad() {
        for used in [0, 1, 16] {
            let (ts, seq) = dirty(used);
            assert_eq!(raw.ts_16(ts, 0), TsSheetAnswer { answer: told, sheet: ts });
            assert_eq!(raw.seq_16(seq, 1), SeqSheetAnswer { answer: told, sheet: seq });
            assert_eq!(raw.ts_each(&ts.keys, [used; 3], 0), (told, vec![-7; used + 2], vec![7; used + 2]));
            assert_eq!(raw.seq_each(&seq.keys, [used; 3], 1), (told, vec![70; used + 2], vec![7; used + 2]));
        }
    }
}

fn raw_uneven() {
    let told = Answer { number: 18, ..Answer::default() };
    for raw in bad().into_iter().map(|(raw, _)| raw).chain([good()]) {
        for lengths in UNEVEN {
            let [_, a, f] = lengths;
            assert_eq!(raw.ts_each(&ASKED_SEQS, lengths, 0), (told, vec![-7; a + 2], vec![7; f + 2]));
            assert_eq!(raw.seq_each(&ASKED_SECS, lengths, 1), (told, vec![70; a + 2], vec![7; f + 2]));
        }
    }
}
