//! A table saved and restored: once, and time and again between offers, lists of offers and lookups.
use super::super::*;
use super::chance::Chance;
use super::lent;
use super::lists;
use super::lookups;
use super::offers::{self, made, shown, table_of};
use super::ours::{but_totals, told_but_totals, Answer, State, Table, TableAnswer, NO_TOTALS, OK};
use super::restores::{Lending, Restores};
use super::tally::Tally;
use super::theirs;

/// A save into `room` bytes: what it wrote, if it was not refused.
fn save(tally: &mut Tally, chance: &mut Chance, t: &SequenceTracker, ours: &Table, strict: bool, image: &[u8], room: usize) -> Option<Vec<u8>> {
    let input = || format!("strict {strict}, into {room} bytes, {}", shown(t));
    let mut out = lent::bytes(chance, room);
    let before = out.all();
    let lent_before = (ours.seqs.all(), ours.secs.all());
    let answer = ours.save(strict, &mut out);
    let seqs: Vec<i64> = t.sequence_numbers.iter().map(|&x| x as i64).collect();
    let back = (theirs::reads_back(&seqs), theirs::reads_back(&t.timestamps));
    if strict && back != (true, true) {
        let theirs = (20, if back.0 { 1 } else { 0 });
        tally.same("strict saves refused, 20", input, &theirs, &(answer.number, answer.a));
        tally.kept("strict saves refused, 20", input, &before, &out.all());
    } else if room < image.len() {
        tally.same("saves refused, 21", input, &Answer { number: 21, a: image.len() as u64, ..OK }, &answer);
        tally.kept("saves refused, 21", input, &before, &out.all());
    } else {
        let kind = if strict { "tables saved strictly" } else { "tables saved" };
        tally.same(kind, input, &Answer { a: image.len() as u64, ..OK }, &answer);
        tally.holds(kind, input, &lent::holding(&before, image), &out.all());
    }
    tally.holds("saves", input, &lent_before, &(ours.seqs.all(), ours.secs.all()));
    (answer.number == 0).then(|| out.places()[..image.len()].to_vec())
}

/// A strict save, and a restore of what it wrote, at an interval, into other arrays: our table goes on there. By the rules (docs/RULES.md) it has the same pairs, the same
/// count and the same last recorded second, that interval, and totals of 0. A refused save leaves it as it is. Whether it was restored.
pub fn reload(tally: &mut Tally, chance: &mut Chance, t: &SequenceTracker, ours: &mut Table, interval: u64) -> bool {
    let image = t.to_bytes();
    let room = image.len() + chance.index(9);
    let Some(written) = save(tally, chance, t, ours, true, &image, room) else {
        return false;
    };
    let mut lending = Lending::new(chance);
    let answer = lending.restore(tally, &written, &theirs::read(&written), interval);
    let restored = lending.into_table(answer.state);
    let own = interval == ours.state.interval_secs;
    let kind = if own { "tables saved and restored at their own interval" } else { "tables saved and restored at another interval" };
    let rule = State { interval_secs: interval, totals: NO_TOTALS, ..ours.state };
    tally.ruled(kind, || format!("interval {interval}, {}", shown(t)), &(rule, ours.kept()), &(restored.state, restored.kept()));
    *ours = restored;
    true
}

/// Where a run begins, on both sides: a table of capacity 8,192, just made if it has no pairs, else restored. One that is all but full has a short interval, so that it is
/// soon halved.
pub fn begun(tally: &mut Tally, chance: &mut Chance, n: usize) -> (SequenceTracker, Table) {
    let interval = if n < 8190 { chance.interval() } else { chance.below(100) };
    if n == 0 {
        let t = SequenceTracker::with_config(8192, interval);
        let ours = made(tally, chance, &t);
        return (t, ours);
    }
    // gaps that an image brings back as they were
    let (mut seq, mut sec) = (chance.below(1 << 40), chance.below(1 << 34) as i64);
    let (mut seqs, mut secs) = (vec![], vec![]);
    for _ in 0..n {
        seqs.push(seq);
        secs.push(sec);
        seq += chance.below(5000);
        sec += chance.below(100) as i64;
    }
    let image = theirs::table(8192, 0, &seqs, &secs).to_bytes();
    let read = theirs::read(&image);
    let mut lending = Lending::new(chance);
    let state = lending.restore(tally, &image, &read, interval).state;
    (theirs::at_interval(read.expect("a good image"), interval), lending.into_table(state))
}

/// Offers to both sides, one by one or as a list, and then lookups: what ours is told of the offers, but for the totals, which each table has of its own.
fn go_on(tally: &mut Tally, chance: &mut Chance, t: &mut SequenceTracker, ours: &mut Table, seqs: &[u64], secs: &[i64], listed: bool) -> Vec<TableAnswer> {
    let told = if listed {
        vec![lists::list(tally, t, ours, seqs, secs)]
    } else {
        seqs.iter().zip(secs).map(|(&seq, &sec)| offers::offer(tally, t, ours, seq, sec)).collect()
    };
    lookups::about(tally, chance, t, ours, 2);
    told.into_iter().map(told_but_totals).collect()
}

/// Demand 3 (docs/RULES.md): with strict saves between the offers, and restores at the table's own interval, each is told what it is told without them, and the tables
/// stay the same, but for the totals, which a restore sets to 0. Our offers alone are held beside it, and the Rust's, alone too, beside both.
fn with_reloads(tally: &mut Tally, chance: &mut Chance, n: usize) {
    let (mut t, mut alone) = begun(tally, chance, n);
    let mut ours = alone.clone();
    for _ in 0..1 + chance.below(6) {
        reload(tally, chance, &t, &mut ours, t.interval_secs);
        let stood = t.clone();
        let (n, listed) = (chance.index(6), chance.below(2) == 0);
        let (seqs, secs) = lists::log(chance, &t, n, t.interval_secs);
        let with = go_on(tally, chance, &mut stood.clone(), &mut ours, &seqs, &secs, listed);
        let without = go_on(tally, chance, &mut t, &mut alone, &seqs, &secs, listed);
        let input = || format!("sequences {seqs:?} and seconds {secs:?} offered, as a list {listed}, to {}", shown(&stood));
        let kind = "offers with saves and restores between them, as the offers alone";
        tally.ruled(kind, input, &(without, but_totals(alone.state), alone.kept()), &(with, but_totals(ours.state), ours.kept()));
    }
}

/// Restores at other intervals than the table's own: both sides go on at the new one.
fn with_other_intervals(tally: &mut Tally, chance: &mut Chance, n: usize) {
    let (mut t, mut ours) = begun(tally, chance, n);
    for _ in 0..1 + chance.below(6) {
        let interval = chance.interval();
        if reload(tally, chance, &t, &mut ours, interval) {
            t = theirs::at_interval(theirs::read(&t.to_bytes()).expect("an image that the Rust wrote"), interval);
        }
        let (n, listed) = (chance.index(6), chance.below(2) == 0);
        let (seqs, secs) = lists::log(chance, &t, n, t.interval_secs);
        go_on(tally, chance, &mut t, &mut ours, &seqs, &secs, listed);
    }
}

pub fn random(tally: &mut Tally, chance: &mut Chance) {
    let mut restores = Restores::new(chance);
    for i in 0..400 {
        let n = if i == 399 { 8192 } else { chance.index(20) };
        let (seqs, secs) = (chance.seqs(n), chance.secs(n));
        let t = theirs::table((n + chance.index(3)).min(8192) as u32, chance.below(100), &seqs, &secs);
        let ours = table_of(chance, &t);
        let image = t.to_bytes();
        let spare = chance.index(9);
        for strict in [false, true] {
            save(tally, chance, &t, &ours, strict, &image, image.len() + spare);
            save(tally, chance, &t, &ours, strict, &image, image.len() - 1);
        }
        restores.all(tally, chance, &image, &theirs::read(&image));
    }
    for i in 0..40 {
        let n = if i == 39 { 8190 + chance.index(3) } else { chance.index(20) };
        with_reloads(tally, chance, n);
        with_other_intervals(tally, chance, n);
    }
}
