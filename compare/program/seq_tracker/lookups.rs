//! Lookups by sequence and by second. Among equal keys the Rust answers some equal one; the rules (docs/RULES.md) ask for the lowest position with RoundUp
//! and the highest with RoundDown.
use super::super::*;
use super::chance::{Chance, FIRST_SECOND, LAST_SECOND};
use super::offers::{shown, table_of};
use super::ours::{Answer, Table, OK};
use super::tally::Tally;
use super::theirs;
use std::fmt::Debug;
use std::ops::RangeInclusive;

pub const ROUNDS: [(FindOption, u32); 2] = [(FindOption::RoundUp, 0), (FindOption::RoundDown, 1)];

fn found(partner: Option<u64>) -> Answer {
    match partner {
        Some(x) => Answer { a: 1, b: x, ..OK },
        None => OK,
    }
}

/// What is counted of one kind of lookup: where no key is equal, where one is, and which of several answers.
pub struct Kinds {
    pub other: &'static str,
    pub equal: &'static str,
    pub lowest: &'static str,
    pub highest: &'static str,
}

const BY_SEQUENCE: Kinds = Kinds {
    other: "lookups by sequence",
    equal: "lookups by a sequence that is there",
    lowest: "lookups by one of several equal sequences, up",
    highest: "lookups by one of several equal sequences, down",
};

const BY_SECOND: Kinds = Kinds {
    other: "lookups by second",
    equal: "lookups by a second that is there",
    lowest: "lookups by one of several equal seconds, up",
    highest: "lookups by one of several equal seconds, down",
};

/// The Rust's answer and ours to one question: `equal` has the partners of the equal keys, in order. Either has to be one of them, and ours the one at the
/// lowest or at the highest position.
pub fn question<K: Debug>(tally: &mut Tally, kinds: &Kinds, t: &SequenceTracker, key: K, round: u32, theirs: Option<u64>, ours: Answer, equal: &[u64]) {
    let input = || format!("{key:?}, round {round}, the Rust {theirs:?}, in {}", shown(t));
    let (Some(lowest), Some(highest)) = (equal.first(), equal.last()) else {
        tally.same(kinds.other, input, &found(theirs), &ours);
        return;
    };
    let member = |a: Answer| equal.iter().any(|&x| a == found(Some(x)));
    tally.same(kinds.equal, input, &(true, true), &(member(found(theirs)), member(ours)));
    let (kind, rule) = if round == 0 { (kinds.lowest, lowest) } else { (kinds.highest, highest) };
    if lowest != highest {
        tally.ruled(kind, input, &found(Some(*rule)), &ours);
    }
}

/// The seconds of the pairs with a sequence, in order.
pub fn of_sequence(t: &SequenceTracker, seq: u64) -> Vec<u64> {
    t.sequence_numbers.iter().zip(&t.timestamps).filter(|p| *p.0 == seq).map(|p| *p.1 as u64).collect()
}

/// The sequences of the pairs with a second, in order.
pub fn of_second(t: &SequenceTracker, sec: i64) -> Vec<u64> {
    t.timestamps.iter().zip(&t.sequence_numbers).filter(|p| *p.0 == sec).map(|p| *p.1).collect()
}

pub fn by_sequence(tally: &mut Tally, t: &SequenceTracker, ours: &Table, seq: u64) {
    let equal = of_sequence(t, seq);
    for (option, round) in ROUNDS {
        let theirs = t.find_ts(seq, option).map(|d| d.timestamp() as u64);
        question(tally, &BY_SEQUENCE, t, seq, round, theirs, ours.find_ts(seq, round), &equal);
    }
}

pub fn by_second(tally: &mut Tally, t: &SequenceTracker, ours: &Table, sec: i64) {
    let equal = of_second(t, sec);
    for (option, round) in ROUNDS {
        let theirs = t.find_seq(theirs::instant(sec), option);
        question(tally, &BY_SECOND, t, sec, round, theirs, ours.find_seq(sec, round), &equal);
    }
}

/// Every table of up to 6 pairs whose sequences and seconds each stay or rise by 2 from one pair to the next, and every key from below the first to above the last.
pub fn every(mut each: impl FnMut(SequenceTracker, RangeInclusive<u64>, RangeInclusive<i64>)) {
    for n in 0..=6usize {
        for steps in 0..1u32 << (2 * n.saturating_sub(1)) {
            let (mut seqs, mut secs) = (vec![], vec![]);
            let (mut seq, mut sec) = (1u64, -3i64);
            for i in 0..n {
                seqs.push(seq);
                secs.push(sec);
                seq += 2 * u64::from(steps >> (2 * i) & 1);
                sec += 2 * i64::from(steps >> (2 * i + 1) & 1);
            }
            each(theirs::table(8, 0, &seqs, &secs), 0..=2 * n as u64 + 1, -4..=2 * n as i64);
        }
    }
}

pub fn exhaustive(tally: &mut Tally) {
    let chance = &mut Chance::new(6);
    every(|t, seqs, secs| {
        let ours = table_of(chance, &t);
        seqs.for_each(|seq| by_sequence(tally, &t, &ours, seq));
        secs.for_each(|sec| by_second(tally, &t, &ours, sec));
    });
}

/// Lookups by keys about those of a table, and beyond its ends.
pub fn about(tally: &mut Tally, chance: &mut Chance, t: &SequenceTracker, ours: &Table, times: usize) {
    for _ in 0..times {
        let near = chance.below(3);
        let at = chance.index(t.timestamps.len().max(1));
        let (seq, sec) = (t.sequence_numbers.get(at).copied().unwrap_or(9), t.timestamps.get(at).copied().unwrap_or(9));
        by_sequence(tally, t, ours, seq.wrapping_add(near).wrapping_sub(1));
        by_second(tally, t, ours, sec + near as i64 - 1);
    }
    for seq in [0, u64::MAX, chance.sized()] {
        by_sequence(tally, t, ours, seq);
    }
    for sec in [FIRST_SECOND - 1, LAST_SECOND + 1, 0] {
        by_second(tally, t, ours, sec);
    }
}

pub fn random(tally: &mut Tally, chance: &mut Chance) {
    for i in 0..150 {
        let n = if i == 149 { 8192 } else { chance.index(30) };
        let (seqs, secs) = (chance.seqs(n), chance.secs(n));
        let capacity = (n + chance.index(3)).min(8192) as u32;
        let t = theirs::table(capacity, 60, &seqs, &secs);
        let ours = table_of(chance, &t);
        about(tally, chance, &t, &ours, 40);
    }
}
