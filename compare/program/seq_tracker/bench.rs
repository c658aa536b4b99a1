//! Work of both sides on the same inputs, between marks that a counter of instructions sees, or timed. Every answer is compared with
//! the Rust's before it is counted. A line `mark N WORK, DATA, PAIRS, SIDE` names each mark; `time NANOSECONDS WORK, DATA, PAIRS, SIDE` has
//! the least time of several.
use super::super::*;
use super::chance::{Chance, FIRST_SECOND, LAST_SECOND};
use super::lent::{self, Lent};
use super::offers::table_of;
use super::ours::{self, Answer, Table, TsSheet, OK};
use super::theirs;
use chrono::SecondsFormat;
use std::hint::black_box;
use std::time::{Duration, Instant};

extern "C" {
    fn syscall(number: i64, ...) -> i64;
}

/// A system call that no kernel knows: it does nothing, and the counter prints what was executed since the last one.
fn mark(n: u64) {
    unsafe {
        syscall(0x5eed, n);
    }
}

/// How often each side is timed, in turn with the other.
const TIMES: usize = 25;

struct Bench {
    marks: u64,
    timed: bool,
}

fn time<A>(work: &mut impl FnMut() -> A) -> Duration {
    let began = Instant::now();
    black_box(work());
    began.elapsed()
}

impl Bench {
    /// How often `work` calls each side.
    fn calls(&self) -> usize {
        1 + if self.timed { TIMES } else { 1 }
    }

    /// Both sides first to warm up and to be compared, then between marks or against the clock.
    fn work<A: PartialEq + std::fmt::Debug>(&mut self, name: &str, mut theirs: impl FnMut() -> A, mut ours: impl FnMut() -> A) {
        assert_eq!(theirs(), ours(), "{name}");
        if self.timed {
            let (mut rust, mut own) = (Duration::MAX, Duration::MAX);
            for _ in 0..TIMES {
                rust = rust.min(time(&mut theirs));
                own = own.min(time(&mut ours));
            }
            println!("time {} {name}, rust", rust.as_nanos());
            println!("time {} {name}, ours", own.as_nanos());
        } else {
            self.count(name, "rust", theirs);
            self.count(name, "ours", ours);
        }
    }

    /// One side alone, which was called before.
    fn alone<A>(&mut self, name: &str, side: &str, mut work: impl FnMut() -> A) {
        if self.timed {
            let least = (0..TIMES).map(|_| time(&mut work)).min().expect("several");
            println!("time {} {name}, {side}", least.as_nanos());
        } else {
            self.count(name, side, work);
        }
    }

    fn count<A>(&mut self, name: &str, side: &str, mut work: impl FnMut() -> A) {
        self.marks += 1;
        mark(0);
        black_box(work());
        mark(self.marks);
        println!("mark {} {name}, {side}", self.marks);
    }
}

/// Regular data, of which every code is one bit, mixed data, and equal pairs.
fn sample(data: &str, n: usize) -> SequenceTracker {
    let chance = &mut Chance::new(88172645463325252);
    let (mut seq, mut sec) = (1000u64, 1_700_000_000i64);
    let (mut seqs, mut secs) = (vec![], vec![]);
    for _ in 0..n {
        seqs.push(seq);
        secs.push(sec);
        let (more, later) = match data {
            "regular" => (64, 60),
            "mixed" => (chance.below(5000), 60 + chance.below(40) as i64),
            "equal" => (0, 0),
            _ => panic!("no data of this name: {data}"),
        };
        seq += more;
        sec += later;
    }
    theirs::table(8192, 60, &seqs, &secs)
}

#[inline(never)]
fn rust_encode(t: &SequenceTracker) -> Vec<u8> {
    t.to_bytes()
}

#[inline(never)]
fn rust_decode(bytes: &[u8]) -> Result<SequenceTracker, String> {
    SequenceTracker::from_bytes(bytes)
}

#[inline(never)]
fn rust_find<const UP: bool>(t: &SequenceTracker, seqs: &[u64]) -> i64 {
    let option = || if UP { FindOption::RoundUp } else { FindOption::RoundDown };
    seqs.iter().map(|&q| t.find_ts(q, option()).map_or(0, |d| d.timestamp())).fold(0, i64::wrapping_add)
}

/// The answers are stored: to add them up takes the Rust no less, and by sequence more, as a second has to be made of each `DateTime` first.
#[inline(never)]
fn rust_find_each<const UP: bool>(t: &SequenceTracker, seqs: &[u64], answers: &mut [Option<DateTime<Utc>>]) {
    let option = || if UP { FindOption::RoundUp } else { FindOption::RoundDown };
    seqs.iter().zip(answers).for_each(|(&q, answer)| *answer = t.find_ts(q, option()));
}

#[inline(never)]
fn rust_find_seq_each<const UP: bool>(t: &SequenceTracker, at: &[DateTime<Utc>], answers: &mut [Option<u64>]) {
    let option = || if UP { FindOption::RoundUp } else { FindOption::RoundDown };
    at.iter().zip(answers).for_each(|(&at, answer)| *answer = t.find_seq(at, option()));
}

#[inline(never)]
fn rust_find_seq_each_made<const UP: bool>(t: &SequenceTracker, secs: &[i64], answers: &mut [Option<u64>]) {
    let option = || if UP { FindOption::RoundUp } else { FindOption::RoundDown };
    secs.iter().zip(answers).for_each(|(&sec, answer)| *answer = t.find_seq(theirs::instant(sec), option()));
}

#[inline(never)]
fn rust_write_date(sec: i64) -> String {
    theirs::instant(sec).to_rfc3339_opts(SecondsFormat::Secs, true)
}

#[inline(never)]
fn rust_read_date(text: &str) -> i64 {
    DateTime::parse_from_rfc3339(text).map_or(0, |at| at.timestamp())
}

fn images(bench: &mut Bench, data: &str, n: usize) {
    let chance = &mut Chance::new(3);
    let t = sample(data, n);
    let image = t.to_bytes();
    let (seqs, secs) = (t.sequence_numbers.clone(), t.timestamps.clone());
    let ours = table_of(chance, &t);
    let name = |work: &str| format!("{work}, {data}, {n}");
    // Into exactly the image's length, and into room for any image of so many pairs.
    for (room, into) in [(image.len(), ""), (9 * n + 21, " into 9n + 21 bytes")] {
        for strict in [false, true] {
            let mut out = lent::bytes(chance, room);
            bench.work(
                &name(&format!("encode{}{into}", if strict { "_strict" } else { "" })),
                || rust_encode(black_box(&t)).len(),
                || ours::encode(strict, black_box(&seqs), black_box(&secs), &mut out).a as usize,
            );
            assert_eq!(out.places()[..image.len()], image);
            bench.work(
                &name(&format!("save{}{into}", if strict { "_strict" } else { "" })),
                || rust_encode(black_box(&t)).len(),
                || black_box(&ours).save(strict, &mut out).a as usize,
            );
            assert_eq!(out.places()[..image.len()], image);
        }
    }
    let (mut to_seqs, mut to_secs) = (lent::seqs(chance, &[], 8192), lent::secs(chance, &[], 8192));
    let mut read = |name: String, mut ours: Box<dyn FnMut(&mut Lent<u64>, &mut Lent<i64>) -> usize>| {
        bench.work(&name, || rust_decode(black_box(&image)).map_or(0, |t| t.timestamps.len()), || ours(&mut to_seqs, &mut to_secs));
        assert_eq!((&to_seqs.places()[..n], &to_secs.places()[..n]), (&seqs[..], &secs[..]));
    };
    let bytes = image.clone();
    read(name("decode"), Box::new(move |a, b| ours::decode(black_box(&bytes), a, b).a as usize));
    let bytes = image.clone();
    read(name("restore"), Box::new(move |a, b| Table::restore_with_interval(black_box(&bytes), a, b, theirs::SLATEDB_INTERVAL_SECS).state.count));
}

fn lookups(bench: &mut Bench, data: &str, n: usize) {
    let t = sample(data, n);
    let ours = table_of(&mut Chance::new(4), &t);
    let asked: Vec<u64> = (0..1000).map(|i| if data == "equal" { 1000 } else { 1000 + i * 5 * n as u64 / 2 }).collect();
    let find = |round| black_box(&asked).iter().map(|&q| ours.find_ts(q, round).b as i64).fold(0, i64::wrapping_add);
    bench.work(&format!("1,000 lookups, {data}, {n}"), || rust_find::<false>(black_box(&t), black_box(&asked)), || find(1));
    bench.work(&format!("1,000 lookups up, {data}, {n}"), || rust_find::<true>(black_box(&t), black_box(&asked)), || find(0));
    // The check alone, as often: a lookup without it is the search.
    let checks = || (0..1000).map(|_| black_box(&ours).check().number).max();
    assert_eq!(checks(), Some(0));
    bench.alone(&format!("1,000 checks, {data}, {n}"), "ours", checks);
    // The same lookups with their reasons.
    for (up, round) in [("", 1), (" up", 0)] {
        asked.iter().for_each(|&q| assert_eq!(ours.why_ts(q, round).answer, ours.find_ts(q, round)));
        let why = || black_box(&asked).iter().map(|&q| ours.why_ts(q, round).answer.b as i64).fold(0, i64::wrapping_add);
        bench.alone(&format!("1,000 reasons{up}, {data}, {n}"), "ours", why);
    }
}

/// Keeps an answer from being left out, and does not copy it.
fn used<A>(answer: &A) {
    black_box(answer);
}

/// 100 sheets of sixteen, in rising order over the table, which are ready before the count begins. Beside them stand the same questions one by one.
fn sheets(bench: &mut Bench, n: usize) {
    let t = sample("mixed", n);
    let ours = table_of(&mut Chance::new(4), &t);
    let asked: Vec<u64> = (0..1600).map(|i| 1000 + i * 25 * n as u64 / 16).collect();
    let sheets: Vec<TsSheet> = asked.chunks(16).map(|keys| TsSheet { keys: keys.try_into().expect("sixteen"), used: 16, ..TsSheet::default() }).collect();
    let mut theirs = vec![None; asked.len()];
    rust_find_each::<false>(&t, &asked, &mut theirs);
    let found = |at: &Option<DateTime<Utc>>| at.map_or(OK, |at| Answer { a: 1, b: at.timestamp() as u64, ..OK });
    for (sheet, beside) in sheets.iter().zip(theirs.chunks(16)) {
        let said = ours.find_ts_16(*sheet, 1);
        assert_eq!(said.answer, OK);
        for (i, at) in beside.iter().enumerate() {
            let answer = said.sheet.answers[i];
            assert_eq!((found(at), found(at)), (Answer { a: answer.found, b: answer.second as u64, ..OK }, ours.find_ts(sheet.keys[i], 1)));
        }
    }
    let name = |form: &str| format!("1,600 questions {form}, mixed, {n}");
    bench.work(
        &name("in sheets"),
        || rust_find_each::<false>(black_box(&t), black_box(&asked), &mut theirs),
        || black_box(&sheets).iter().for_each(|sheet| used(&ours.find_ts_16(*sheet, 1))),
    );
    let singly = || black_box(&asked).iter().for_each(|&q| used(&ours.find_ts(q, 1)));
    bench.alone(&name("one by one"), "ours", singly);
}

/// How many questions a list has.
const QUESTIONS: usize = 100_000;

/// Keys of a list: spread evenly over the table, in rising order; the same in random order; and some beyond that end of it at which nothing is found.
fn asked(first: i64, last: i64, up: bool) -> [(&'static str, Vec<i64>); 3] {
    let chance = &mut Chance::new(8);
    let all = 0..QUESTIONS as i64;
    let rising: Vec<i64> = all.clone().map(|i| first + (last - first) * i / (QUESTIONS as i64 - 1)).collect();
    let mut random = rising.clone();
    (1..QUESTIONS).rev().for_each(|i| random.swap(i, chance.index(i + 1)));
    let nothing = all.map(|i| if up { last + 1 + i } else { first - 1 - i % 1000 }).collect();
    [("rising", rising), ("random", random), ("nothing found", nothing)]
}

/// The name of a list, and the call's number of its rounding.
fn list_of(by: &str, up: bool, order: &str) -> (String, u32) {
    (format!("100,000 questions by {by}, {}, {order}", if up { "up" } else { "down" }), u32::from(!up))
}

fn lists_by_sequence<const UP: bool>(bench: &mut Bench) {
    let (t, chance) = (sample("mixed", 8192), &mut Chance::new(9));
    let ours = table_of(chance, &t);
    for (order, keys) in asked(t.sequence_numbers[0] as i64, t.sequence_numbers[8191] as i64, UP) {
        let (name, round) = list_of("sequence", UP, order);
        let keys = lent::seqs(chance, &keys.iter().map(|&k| k as u64).collect::<Vec<u64>>(), 0);
        let (mut answers, mut found) = (lent::secs(chance, &[], QUESTIONS), lent::bytes(chance, QUESTIONS));
        let mut theirs = vec![None; QUESTIONS];
        rust_find_each::<UP>(&t, keys.places(), &mut theirs);
        assert_eq!(ours.find_ts_each(&keys, &mut answers, &mut found, round), OK);
        for (at, (&second, &mark)) in theirs.iter().zip(answers.places().iter().zip(found.places())) {
            assert_eq!(at.map_or((0, 0), |at| (at.timestamp(), 1)), (second, mark), "{name}");
        }
        bench.work(
            &name,
            || rust_find_each::<UP>(black_box(&t), black_box(keys.places()), &mut theirs),
            || used(&black_box(&ours).find_ts_each(&keys, &mut answers, &mut found, round)),
        );
    }
}

/// The Rust makes a `DateTime` of each second, or has them ready.
fn lists_by_second<const UP: bool>(bench: &mut Bench) {
    let (t, chance) = (sample("mixed", 8192), &mut Chance::new(9));
    let ours = table_of(chance, &t);
    for (order, keys) in asked(t.timestamps[0], t.timestamps[8191], UP) {
        let (name, round) = list_of("second", UP, order);
        let ready: Vec<DateTime<Utc>> = keys.iter().map(|&sec| theirs::instant(sec)).collect();
        let keys = lent::secs(chance, &keys, 0);
        let (mut answers, mut found) = (lent::seqs(chance, &[], QUESTIONS), lent::bytes(chance, QUESTIONS));
        let mut theirs = vec![None; QUESTIONS];
        rust_find_seq_each::<UP>(&t, &ready, &mut theirs);
        assert_eq!(ours.find_seq_each(&keys, &mut answers, &mut found, round), OK);
        for (seq, (&own, &mark)) in theirs.iter().zip(answers.places().iter().zip(found.places())) {
            assert_eq!(seq.map_or((0, 0), |seq| (seq, 1)), (own, mark), "{name}");
        }
        let mut each = || used(&black_box(&ours).find_seq_each(&keys, &mut answers, &mut found, round));
        let made = || rust_find_seq_each_made::<UP>(black_box(&t), black_box(keys.places()), &mut theirs);
        bench.work(&format!("{name}, DateTimes made"), made, &mut each);
        let taken = || rust_find_seq_each::<UP>(black_box(&t), black_box(&ready), &mut theirs);
        bench.work(&format!("{name}, DateTimes ready"), taken, &mut each);
    }
}

/// 100,000 offers at an interval: the second of each goes by its position. The Rust makes a `DateTime` of each second, as in its own `extend_from`, or has
/// them ready.
fn offers(bench: &mut Bench, became: &str, interval: u64, second: fn(i64) -> i64, ready: bool) {
    let (seqs, secs): (Vec<u64>, Vec<i64>) = ((0..100_000).collect(), (0..100_000).map(second).collect());
    let records: Vec<TrackedSeq> = seqs.iter().zip(&secs).map(|(&seq, &s)| TrackedSeq { seq, ts: theirs::instant(s) }).collect();
    let from = if ready { "DateTimes ready" } else { "DateTimes made" };
    let mut fresh: Vec<Table> = (0..bench.calls()).map(|_| table_of(&mut Chance::new(5), &SequenceTracker::with_config(8192, interval))).collect();
    let (mut left, mut left_ours) = (None, None);
    bench.work(
        &format!("100,000 offers, {became}, {from}"),
        || {
            let mut t = SequenceTracker::with_config(8192, interval);
            if ready {
                black_box(&records).iter().for_each(|&r| t.insert(r));
            } else {
                black_box(&seqs).iter().zip(&secs).for_each(|(&seq, &sec)| t.insert(TrackedSeq { seq, ts: theirs::instant(sec) }));
            }
            left.insert(t).sequence_numbers.len()
        },
        || {
            let mut t = fresh.pop().expect("a table for each time");
            let n = t.offer_pairs(black_box(&seqs), black_box(&secs)).state.count;
            left_ours = Some(t);
            n
        },
    );
    let (t, ours) = (left.expect("done"), left_ours.expect("done"));
    let n = t.timestamps.len();
    assert_eq!((&t.sequence_numbers[..], &t.timestamps[..]), (&ours.seqs.places()[..n], &ours.secs.places()[..n]));
}

/// 1,000 dates, beside chrono's, whose text is a new `String` each time.
fn dates(bench: &mut Bench, data: &str, secs: &[i64]) {
    let texts: Vec<String> = secs.iter().map(|&sec| rust_write_date(sec)).collect();
    let mut out = lent::bytes(&mut Chance::new(6), 20);
    for (&sec, text) in secs.iter().zip(&texts) {
        ours::write_date(sec, &mut out);
        assert_eq!((out.places(), ours::read_date(text.as_bytes()).a as i64), (text.as_bytes(), sec));
    }
    bench.work(
        &format!("1,000 dates written, {data}"),
        || black_box(secs).iter().map(|&sec| rust_write_date(sec).len()).sum::<usize>(),
        || black_box(secs).iter().map(|&sec| ours::write_date(sec, &mut out).a as usize).sum(),
    );
    bench.work(
        &format!("1,000 dates read, {data}"),
        || black_box(&texts).iter().map(|text| rust_read_date(text)).fold(0, i64::wrapping_add),
        || black_box(&texts).iter().map(|text| ours::read_date(text.as_bytes()).a as i64).fold(0, i64::wrapping_add),
    );
}

pub fn main(timed: bool) {
    let mut bench = Bench { marks: 0, timed };
    for data in ["regular", "mixed"] {
        for n in [512, 2048, 8192] {
            images(&mut bench, data, n);
        }
    }
    for (data, n) in [("mixed", 1), ("mixed", 512), ("mixed", 2048), ("mixed", 8192), ("equal", 8192)] {
        lookups(&mut bench, data, n);
    }
    [1, 512, 8192].into_iter().for_each(|n| sheets(&mut bench, n));
    lists_by_sequence::<false>(&mut bench);
    lists_by_sequence::<true>(&mut bench);
    lists_by_second::<false>(&mut bench);
    lists_by_second::<true>(&mut bench);
    // What becomes of them, the interval, and the second at a position. Of those that go back, each that is recorded is followed by 59 below it.
    let kinds: [(&str, u64, fn(i64) -> i64); 3] = [("all recorded", 0, |i| i), ("59 of 60 too soon", 60, |i| i), ("59 of 60 went back", 60, |i| i - i % 60 * 2)];
    for (became, interval, second) in kinds {
        for ready in [false, true] {
            offers(&mut bench, became, interval, second, ready);
        }
    }
    let step = (LAST_SECOND - FIRST_SECOND) / 999;
    dates(&mut bench, "mixed", &sample("mixed", 1000).timestamps);
    dates(&mut bench, "all years", &(0..1000).map(|i| FIRST_SECOND + i * step).collect::<Vec<i64>>());
}
