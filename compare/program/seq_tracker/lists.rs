//! Lists of offers and `extend_from`: the numbers recorded and skipped, the refused position, the table afterwards. The number of each
//! reason is judged by the rules (docs/RULES.md) alone, and the totals by the comparison's own count.
use super::super::*;
use super::chance::{Chance, FIRST_SECOND, LAST_SECOND};
use super::lent;
use super::offers::{comparable, empty, go_on, second, sequence, shown, table_of};
use super::ours::{State, Table, TableAnswer, Totals, NO_OFFERS, OK};
use super::readers::unfit;
use super::refusals::{no_table, told};
use super::tally::Tally;
use super::theirs::{self, Offer};

/// What the lent arrays should hold: each recorded pair changes the places up to the new count, and no other.
struct Held {
    seqs: Vec<u64>,
    secs: Vec<i64>,
}

impl Held {
    fn by(ours: &Table) -> Held {
        Held { seqs: ours.seqs.all(), secs: ours.secs.all() }
    }

    fn recorded(&mut self, t: &SequenceTracker, stood: usize) {
        let from = if t.sequence_numbers.len() == stood + 1 { stood } else { 0 };
        lent::set(&mut self.seqs, from, &t.sequence_numbers[from..]);
        lent::set(&mut self.secs, from, &t.timestamps[from..]);
    }
}

/// The records offered in order to the Rust's table, up to the first refusal, and each counted from these totals on; the one refused by 31 is not.
fn offered(t: &mut SequenceTracker, mut totals: Totals, held: &mut Held, seqs: &[u64], secs: &[i64]) -> TableAnswer {
    let (mut counts, mut answer) = (NO_OFFERS, OK);
    for (i, (&seq, &sec)) in seqs.iter().zip(secs).enumerate() {
        if theirs::full(totals) {
            answer = told(31, i as u64, 0);
            break;
        }
        let stood = t.sequence_numbers.len();
        let outcome = theirs::offer(t, seq, sec);
        counts = outcome.counted(counts);
        totals = outcome.totalled(totals);
        match outcome {
            Offer::Recorded => held.recorded(t, stood),
            Offer::Skipped(_) => {}
            Offer::Refused(number) => {
                answer = told(number, i as u64, 0);
                break;
            }
        }
    }
    TableAnswer { answer, tally: counts, state: State { totals, ..theirs::state(t) } }
}

/// The kinds of a list's answer: by how it ended, compared with the Rust (16 and 31 it does not have: these are held to the rules), and by why offers were skipped,
/// held to the rules.
struct Kinds {
    ended: &'static str,
    stopped: [(u32, &'static str); 3],
    went_back: &'static str,
    too_soon: &'static str,
    both: &'static str,
    totals: &'static str,
}

const LISTS: Kinds = Kinds {
    ended: "lists of offers",
    stopped: [(16, "lists of offers stopped, 16"), (17, "lists of offers stopped, 17"), (31, "lists of offers stopped, 31")],
    went_back: "lists of offers, some went back, none too soon",
    too_soon: "lists of offers, some too soon, none went back",
    both: "lists of offers, some went back and some too soon",
    totals: "totals after lists of offers",
};

const EXTENSIONS: Kinds = Kinds {
    ended: "extensions from another table",
    // 16 is not met: a good table's seconds are in the domain
    stopped: [
        (16, "extensions from another table stopped, 16"),
        (17, "extensions from another table stopped, 17"),
        (31, "extensions from another table stopped, 31"),
    ],
    went_back: "extensions from another table, some went back, none too soon",
    too_soon: "extensions from another table, some too soon, none went back",
    both: "extensions from another table, some went back and some too soon",
    totals: "totals after extensions from another table",
};

/// Compares our answer and the arrays. Our table goes on from there.
fn compare(tally: &mut Tally, kinds: Kinds, input: impl Fn() -> String, theirs: TableAnswer, held: Held, answer: TableAnswer, ours: &mut Table) {
    let number = theirs.answer.number;
    let kind = kinds.stopped.iter().find(|stopped| stopped.0 == number).map_or(kinds.ended, |stopped| stopped.1);
    if [16, 31].contains(&number) {
        tally.ruled(kind, &input, &comparable(&theirs), &comparable(&answer));
    } else {
        tally.same(kind, &input, &comparable(&theirs), &comparable(&answer));
    }
    let why = match (theirs.tally.went_back, theirs.tally.too_soon) {
        (0, 0) => None,
        (_, 0) => Some(kinds.went_back),
        (0, _) => Some(kinds.too_soon),
        _ => Some(kinds.both),
    };
    if let Some(why) = why {
        tally.ruled(why, &input, &theirs.tally, &answer.tally);
    }
    tally.holds(kind, &input, &(held.seqs, held.secs), &(ours.seqs.all(), ours.secs.all()));
    go_on(tally, kinds.totals, &input, ours, theirs.state.totals, answer.state);
}

/// A list of offers on both sides, and our answer.
pub fn list(tally: &mut Tally, t: &mut SequenceTracker, ours: &mut Table, seqs: &[u64], secs: &[i64]) -> TableAnswer {
    let (stood, totals, mut held) = (t.clone(), ours.due, Held::by(ours));
    let theirs = offered(t, totals, &mut held, seqs, secs);
    let answer = ours.offer_pairs(seqs, secs);
    let input = || format!("sequences {seqs:?} and seconds {secs:?} offered to {}, {totals:?}", shown(&stood));
    compare(tally, LISTS, input, theirs, held, answer, ours);
    answer
}

/// The pairs of another table offered on both sides, and our answer.
pub fn extend(tally: &mut Tally, chance: &mut Chance, t: &mut SequenceTracker, ours: &mut Table, other: &SequenceTracker) -> TableAnswer {
    let lent = table_of(chance, other);
    let lent_before = (lent.seqs.all(), lent.secs.all());
    let (stood, totals, mut held) = (t.clone(), ours.due, Held::by(ours));
    let theirs = offered(t, totals, &mut held, &other.sequence_numbers, &other.timestamps);
    let input = || format!("{}, {totals:?}, extended from {}", shown(&stood), shown(other));
    if theirs.answer.number != 31 {
        let mut extended = stood.clone();
        let ended = theirs::extend_from(&mut extended, other);
        tally.holds("the Rust's extend_from and its inserts", input, &(ended, shown(&extended)), &(theirs.answer.number == 0, shown(t)));
    }
    let answer = ours.extend_from(&lent);
    tally.holds("the other table's arrays", input, &lent_before, &(lent.seqs.all(), lent.secs.all()));
    compare(tally, EXTENSIONS, input, theirs, held, answer, ours);
    answer
}

/// Seconds at the limits of both reasons: the last recorded one, one and two intervals after it, and the one before each of these.
fn limits(t: &SequenceTracker) -> Vec<i64> {
    let last = t.last_recorded_ts.expect("a recorded second") as i128;
    let after = |intervals: i128| last + intervals * t.interval_secs as i128;
    let all = [last - 1, last, after(1) - 1, after(1), after(2) - 1, after(2)];
    let mut secs = all.map(|s| s.clamp(FIRST_SECOND as i128, LAST_SECOND as i128) as i64).to_vec();
    secs.sort();
    secs.dedup();
    secs
}

/// Every list of up to three offers that begins with these, of sequences about 5 and seconds at the limits: as a list and, where it is in
/// order, as another table's pairs.
fn every(tally: &mut Tally, chance: &mut Chance, t: &SequenceTracker, limits: &[i64], seqs: &[u64], secs: &[i64]) {
    list(tally, &mut t.clone(), &mut table_of(chance, t), seqs, secs);
    if unfit(seqs, secs).is_none() {
        let mut ours = table_of(chance, t);
        extend(tally, chance, &mut t.clone(), &mut ours, &theirs::table(3, 0, seqs, secs));
    }
    if seqs.len() == 3 {
        return;
    }
    for seq in [4, 5, 6] {
        for &sec in limits {
            every(tally, chance, t, limits, &[seqs, &[seq]].concat(), &[secs, &[sec]].concat());
        }
    }
}

/// Tables whose last kept sequence is 5. All but those of the longest interval above capacity 0 were halved last, so that at an odd capacity the
/// last recorded second is not kept.
pub fn exhaustive(tally: &mut Tally) {
    let chance = &mut Chance::new(3);
    for capacity in 0..5 {
        for interval in [0, 1, 60, i64::MAX as u64] {
            let mut t = SequenceTracker::with_config(capacity, interval);
            for i in 0..=capacity as i64 {
                theirs::offer(&mut t, 5, 60 * i);
            }
            every(tally, chance, &t, &limits(&t), &[], &[]);
        }
    }
}

/// Another table, about the pairs of this one.
pub fn another(chance: &mut Chance, t: &SequenceTracker) -> SequenceTracker {
    let n = chance.index(12);
    let (seqs, secs) = (rising_from(chance, t, n), chance.secs(n));
    let capacity = n as u32 + chance.below(3) as u32;
    theirs::table(capacity, chance.below(100), &seqs, &secs)
}

/// Rising sequences that mostly start at the table's last kept one.
fn rising_from(chance: &mut Chance, t: &SequenceTracker, n: usize) -> Vec<u64> {
    let from = t.sequence_numbers.last().copied().unwrap_or(0);
    let mut at = if chance.below(4) == 0 { from.saturating_sub(chance.below(1000)) } else { from };
    let mut next = || {
        at = at.saturating_add(chance.below(300));
        at
    };
    (0..n).map(|_| next()).collect()
}

/// A log about a table's last pair, whose seconds go by an interval.
pub fn log(chance: &mut Chance, t: &SequenceTracker, n: usize, interval: u64) -> (Vec<u64>, Vec<i64>) {
    let (mut last_seq, mut last_sec) = (t.sequence_numbers.last().copied(), t.last_recorded_ts);
    let (mut seqs, mut secs) = (vec![], vec![]);
    for _ in 0..n {
        let (seq, sec) = (sequence(chance, last_seq), second(chance, last_sec, interval));
        seqs.push(seq);
        secs.push(sec);
        last_seq = last_seq.max(Some(seq));
        if (FIRST_SECOND..=LAST_SECOND).contains(&sec) {
            last_sec = last_sec.max(Some(sec));
        }
    }
    (seqs, secs)
}

/// A log with one entry more on one side, which only the rules (docs/RULES.md) judge: 18, and nothing changes.
pub fn unequal(tally: &mut Tally, chance: &mut Chance, t: &SequenceTracker, ours: &mut Table, mut seqs: Vec<u64>, mut secs: Vec<i64>) {
    match chance.below(2) {
        0 => seqs.push(7),
        _ => secs.push(7),
    }
    let before = (ours.seqs.all(), ours.secs.all());
    let kind = "lists of offers refused, 18";
    let input = || format!("sequences {seqs:?} and seconds {secs:?} offered to {}", shown(t));
    tally.ruled(kind, input, &no_table(told(18, 0, 0)), &ours.offer_pairs(&seqs, &secs));
    tally.kept(kind, input, &before, &(ours.seqs.all(), ours.secs.all()));
}

/// A log long enough to halve a full-sized table more than once, in parts.
fn long(tally: &mut Tally, chance: &mut Chance) {
    let mut t = SequenceTracker::with_config(chance.of(&[8191, 8192, 1000, 1001]), chance.of(&[0, 60]));
    let mut ours = table_of(chance, &t);
    for _ in 0..8 {
        let n = 1 + chance.index(6000);
        let step = t.interval_secs as i64 + 1;
        let from = t.last_recorded_ts.unwrap_or(0);
        let seq = t.sequence_numbers.last().copied().unwrap_or(0);
        let seqs: Vec<u64> = (0..n as u64).map(|i| seq + i * 3).collect();
        let secs: Vec<i64> = (1..=n as i64).map(|i| from + i * step - i % 2).collect();
        list(tally, &mut t, &mut ours, &seqs, &secs);
    }
}

pub fn random(tally: &mut Tally, chance: &mut Chance) {
    for _ in 0..600 {
        let mut t = empty(chance);
        let mut ours = table_of(chance, &t);
        for _ in 0..1 + chance.below(6) {
            let n = chance.index(20);
            let (seqs, secs) = log(chance, &t, n, t.interval_secs.min(1000));
            list(tally, &mut t, &mut ours, &seqs, &secs);
            unequal(tally, chance, &t, &mut ours, seqs, secs);
            if chance.below(2) == 0 {
                let other = another(chance, &t);
                extend(tally, chance, &mut t, &mut ours, &other);
            }
        }
    }
    long(tally, chance);
}
