//! Totals, by the rules (docs/RULES.md): no answer depends on them but 14, which `refusals.rs` has, and 31. What counts them is in `offers.rs` and `lists.rs`.
use super::super::*;
use super::chance::{Chance, FIRST_SECOND, LAST_SECOND};
use super::lent;
use super::lists;
use super::lookups;
use super::offers::{self, outside, shown, table_of};
use super::ours::{told_but_totals, Table, TableAnswer, NO_TOTALS};
use super::tally::Tally;
use super::theirs;

/// A table with up to 12 pairs.
fn table(chance: &mut Chance) -> SequenceTracker {
    let n = chance.index(13);
    let (seqs, secs) = (chance.seqs(n), chance.secs(n));
    theirs::table((n + chance.index(3)) as u32, chance.interval(), &seqs, &secs)
}

/// What is offered, in one way or another.
#[derive(Debug)]
struct Log {
    seqs: Vec<u64>,
    secs: Vec<i64>,
    other: SequenceTracker,
}

impl Log {
    fn about(chance: &mut Chance, t: &SequenceTracker) -> Log {
        let n = chance.index(6);
        let (seqs, secs) = lists::log(chance, t, n, t.interval_secs);
        Log { seqs, secs, other: lists::another(chance, t) }
    }
}

/// What only reads a table: with any totals, 2^64-1 offers too, it answers as with none.
fn reads(tally: &mut Tally, chance: &mut Chance, t: &SequenceTracker) {
    let counted = chance.of_every_sum();
    let totals = chance.totals(counted);
    let own = table_of(chance, t);
    let (none, some) = (own.with_totals(NO_TOTALS), own.with_totals(totals));
    let input = || format!("{totals:?}, {}", shown(t));
    tally.ruled("checks at any totals, as at none", input, &none.check(), &some.check());
    lookups::about(tally, chance, t, &some, 1);
    let at = chance.index(t.timestamps.len().max(1));
    let near = chance.below(3);
    let seq = t.sequence_numbers.get(at).copied().unwrap_or(9).wrapping_add(near).wrapping_sub(1);
    let sec = t.timestamps.get(at).copied().unwrap_or(9) + near as i64 - 1;
    for round in [0, 1] {
        tally.ruled("lookups at any totals, as at none", input, &none.find_ts(seq, round), &some.find_ts(seq, round));
        tally.ruled("lookups at any totals, as at none", input, &none.find_seq(sec, round), &some.find_seq(sec, round));
    }
    let len = t.to_bytes().len();
    for (strict, room) in [(false, len), (false, len - 1), (true, len), (true, len - 1)] {
        let mut out = lent::bytes(chance, room);
        let mut beside = out.clone();
        let (rule, answer) = (none.save(strict, &mut beside), some.save(strict, &mut out));
        tally.ruled("saves at any totals, as at none", input, &(rule, beside.all()), &(answer, out.all()));
    }
    // the other table of an extension is only read too
    let (mut one, mut another) = (own.with_totals(NO_TOTALS), own.with_totals(NO_TOTALS));
    let (rule, answer) = (one.extend_from(&none), another.extend_from(&some));
    tally.ruled("extensions from a table at any totals, as at none", input, &rule, &answer);
    tally.holds("extensions from a table at any totals", input, &(one.seqs.all(), one.secs.all()), &(another.seqs.all(), another.secs.all()));
}

/// Offers to both sides, alone, as a list or as another table's pairs: what ours is told, but for the totals.
fn offered(tally: &mut Tally, chance: &mut Chance, way: u64, t: &mut SequenceTracker, ours: &mut Table, log: &Log) -> Vec<TableAnswer> {
    let told = match way {
        0 => log.seqs.iter().zip(&log.secs).map(|(&seq, &sec)| offers::offer(tally, t, ours, seq, sec)).collect(),
        1 => vec![lists::list(tally, t, ours, &log.seqs, &log.secs)],
        _ => vec![lists::extend(tally, chance, t, ours, &log.other)],
    };
    told.into_iter().map(told_but_totals).collect()
}

/// What counts: as long as there is room in the totals, the answers but for these, and the arrays, are as from none on.
fn counts(tally: &mut Tally, chance: &mut Chance, t: &SequenceTracker) {
    let (mut t, mut beside) = (t.clone(), t.clone());
    let counted = chance.of_every_sum().min(u64::MAX - 100);
    let totals = chance.totals(counted);
    let own = table_of(chance, &t);
    let (mut none, mut some) = (own.with_totals(NO_TOTALS), own.with_totals(totals));
    for way in 0..3 {
        let stood = t.clone();
        let log = Log::about(chance, &t);
        let rule = offered(tally, chance, way, &mut beside, &mut none, &log);
        let answers = offered(tally, chance, way, &mut t, &mut some, &log);
        let input = || format!("from {totals:?} on, {log:?} in the way {way} to {}", shown(&stood));
        let kind = "offers at any totals, as at none";
        tally.ruled(kind, input, &rule, &answers);
        tally.holds(kind, input, &(none.seqs.all(), none.secs.all()), &(some.seqs.all(), some.secs.all()));
    }
}

/// Totals with room for a few offers, or for none: those are counted, and the next one is refused by 31, whatever it is.
fn fills(tally: &mut Tally, chance: &mut Chance, t: &SequenceTracker) {
    let left = chance.below(5);
    let totals = chance.totals(u64::MAX - left);
    let own = table_of(chance, t).with_totals(totals);
    for way in 0..3 {
        let (mut t, mut ours) = (t.clone(), own.clone());
        for _ in 0..2 {
            let log = Log::about(chance, &t);
            offered(tally, chance, way, &mut t, &mut ours, &log);
        }
        while !theirs::full(ours.due) {
            offers::offer(tally, &mut t, &mut ours, u64::MAX, 0);
        }
        for sec in [FIRST_SECOND, t.last_recorded_ts.unwrap_or(0), LAST_SECOND, outside(chance)] {
            for seq in [0, u64::MAX] {
                offers::offer(tally, &mut t, &mut ours, seq, sec);
            }
        }
        lists::list(tally, &mut t, &mut ours, &[], &[]);
        let log = Log::about(chance, &t);
        lists::unequal(tally, chance, &t, &mut ours, log.seqs, log.secs);
        lookups::about(tally, chance, &t, &ours, 1);
    }
}

pub fn random(tally: &mut Tally, chance: &mut Chance) {
    for _ in 0..100 {
        let t = table(chance);
        reads(tally, chance, &t);
        counts(tally, chance, &t);
        fills(tally, chance, &t);
    }
}
