//! Many questions to one table, in sheets of sixteen and in lists: at each place used, the Rust's lookup of its key, held as `lookups.rs` holds one, and our own
//! single lookup. All else comes back as it went in. What refuses them is in `refusals.rs`.
use super::super::*;
use super::chance::{Chance, FIRST_SECOND, LAST_SECOND};
use super::lent::{self, holding, Lent};
use super::lists;
use super::lookups::{self, Kinds};
use super::offers::{self, made, shown, table_of};
use super::ours::{Answer, SeqAnswer, SeqSheet, Table, TsAnswer, TsSheet, WhyAnswer, OK};
use super::stores;
use super::tally::Tally;
use super::theirs;
use super::why::{Reasons, BY_SECOND, BY_SEQUENCE};
use std::fmt::Debug;

/// A sheet of either kind: an answer is its mark and its value, of a second the bits.
#[derive(Clone, Copy, Debug, PartialEq)]
pub struct Sheet<K> {
    pub keys: [K; 16],
    pub answers: [(u64, u64); 16],
    pub used: usize,
}

/// What is counted of one form: each place by what it asks, and beside a single lookup.
pub struct Form {
    pub kinds: Kinds,
    pub alone: &'static str,
}

/// What a question asks by: a sequence, or a second.
pub trait Key: Copy + Debug + Ord {
    type Partner: Key;
    const SHEET: Form;
    const LIST: Form;
    const WHY: Reasons;
    fn bits(self) -> u64;
    /// The keys that the Rust keeps.
    fn kept(t: &SequenceTracker) -> &[Self];
    fn any(chance: &mut Chance) -> Self;
    /// A key about one of a table's, or at the ends of what the Rust can be asked.
    fn about(chance: &mut Chance, t: &SequenceTracker) -> Self;
    fn theirs(self, t: &SequenceTracker, option: FindOption) -> Option<u64>;
    /// The partners of the equal keys, in order.
    fn equal(self, t: &SequenceTracker) -> Vec<u64>;
    fn alone(self, ours: &Table, round: u32) -> Answer;
    fn why(self, ours: &Table, round: u32) -> WhyAnswer;
    fn sixteen(ours: &Table, sheet: Sheet<Self>, round: u32) -> (Answer, Sheet<Self>);
    fn each(ours: &Table, keys: &Lent<Self>, answers: &mut Lent<Self::Partner>, found: &mut Lent<u8>, round: u32) -> Answer;
}

impl Key for u64 {
    type Partner = i64;
    const SHEET: Form = Form {
        kinds: Kinds {
            other: "questions of a sheet, by sequence",
            equal: "questions of a sheet, by a sequence that is there",
            lowest: "questions of a sheet, by one of several equal sequences, up",
            highest: "questions of a sheet, by one of several equal sequences, down",
        },
        alone: "questions of a sheet, by sequence, as one lookup",
    };
    const LIST: Form = Form {
        kinds: Kinds {
            other: "questions of a list, by sequence",
            equal: "questions of a list, by a sequence that is there",
            lowest: "questions of a list, by one of several equal sequences, up",
            highest: "questions of a list, by one of several equal sequences, down",
        },
        alone: "questions of a list, by sequence, as one lookup",
    };
    const WHY: Reasons = BY_SEQUENCE;

    fn bits(self) -> u64 {
        self
    }

    fn kept(t: &SequenceTracker) -> &[u64] {
        &t.sequence_numbers
    }

    fn any(chance: &mut Chance) -> u64 {
        chance.word()
    }

    fn about(chance: &mut Chance, t: &SequenceTracker) -> u64 {
        let kept = &t.sequence_numbers;
        let at = chance.index(kept.len().max(1));
        let near = kept.get(at).copied().unwrap_or(9).wrapping_add(chance.below(3)).wrapping_sub(1);
        let far = chance.sized();
        if chance.below(8) == 0 { chance.of(&[0, u64::MAX, far]) } else { near }
    }

    fn theirs(self, t: &SequenceTracker, option: FindOption) -> Option<u64> {
        t.find_ts(self, option).map(|at| at.timestamp() as u64)
    }

    fn equal(self, t: &SequenceTracker) -> Vec<u64> {
        lookups::of_sequence(t, self)
    }

    fn alone(self, ours: &Table, round: u32) -> Answer {
        ours.find_ts(self, round)
    }

    fn why(self, ours: &Table, round: u32) -> WhyAnswer {
        ours.why_ts(self, round)
    }

    fn sixteen(ours: &Table, sheet: Sheet<u64>, round: u32) -> (Answer, Sheet<u64>) {
        let answers = sheet.answers.map(|(found, second)| TsAnswer { found, second: second as i64 });
        let said = ours.find_ts_16(TsSheet { keys: sheet.keys, answers, used: sheet.used }, round);
        let answers = said.sheet.answers.map(|answer| (answer.found, answer.second as u64));
        (said.answer, Sheet { keys: said.sheet.keys, answers, used: said.sheet.used })
    }

    fn each(ours: &Table, keys: &Lent<u64>, answers: &mut Lent<i64>, found: &mut Lent<u8>, round: u32) -> Answer {
        ours.find_ts_each(keys, answers, found, round)
    }
}

impl Key for i64 {
    type Partner = u64;
    const SHEET: Form = Form {
        kinds: Kinds {
            other: "questions of a sheet, by second",
            equal: "questions of a sheet, by a second that is there",
            lowest: "questions of a sheet, by one of several equal seconds, up",
            highest: "questions of a sheet, by one of several equal seconds, down",
        },
        alone: "questions of a sheet, by second, as one lookup",
    };
    const LIST: Form = Form {
        kinds: Kinds {
            other: "questions of a list, by second",
            equal: "questions of a list, by a second that is there",
            lowest: "questions of a list, by one of several equal seconds, up",
            highest: "questions of a list, by one of several equal seconds, down",
        },
        alone: "questions of a list, by second, as one lookup",
    };
    const WHY: Reasons = BY_SECOND;

    fn bits(self) -> u64 {
        self as u64
    }

    fn kept(t: &SequenceTracker) -> &[i64] {
        &t.timestamps
    }

    fn any(chance: &mut Chance) -> i64 {
        chance.word() as i64
    }

    fn about(chance: &mut Chance, t: &SequenceTracker) -> i64 {
        let at = chance.index(t.timestamps.len().max(1));
        let near = t.timestamps.get(at).copied().unwrap_or(9) + chance.below(3) as i64 - 1;
        if chance.below(8) == 0 { chance.of(&[FIRST_SECOND - 1, LAST_SECOND + 1, 0]) } else { near }
    }

    fn theirs(self, t: &SequenceTracker, option: FindOption) -> Option<u64> {
        t.find_seq(theirs::instant(self), option)
    }

    fn equal(self, t: &SequenceTracker) -> Vec<u64> {
        lookups::of_second(t, self)
    }

    fn alone(self, ours: &Table, round: u32) -> Answer {
        ours.find_seq(self, round)
    }

    fn why(self, ours: &Table, round: u32) -> WhyAnswer {
        ours.why_seq(self, round)
    }

    fn sixteen(ours: &Table, sheet: Sheet<i64>, round: u32) -> (Answer, Sheet<i64>) {
        let answers = sheet.answers.map(|(found, seq)| SeqAnswer { found, seq });
        let said = ours.find_seq_16(SeqSheet { keys: sheet.keys, answers, used: sheet.used }, round);
        let answers = said.sheet.answers.map(|answer| (answer.found, answer.seq));
        (said.answer, Sheet { keys: said.sheet.keys, answers, used: said.sheet.used })
    }

    fn each(ours: &Table, keys: &Lent<i64>, answers: &mut Lent<u64>, found: &mut Lent<u8>, round: u32) -> Answer {
        ours.find_seq_each(keys, answers, found, round)
    }
}

/// Lends keys, and then places that hold anything.
pub fn lend<K: Key>(chance: &mut Chance, keys: &[K], spare: usize) -> Lent<K> {
    Lent::new(keys, spare, || K::any(chance))
}

/// A sheet with these questions. Its answers, and the keys that are not used, hold anything.
pub fn sheet_of<K: Key>(chance: &mut Chance, keys: &[K]) -> Sheet<K> {
    let mut sheet = Sheet { keys: [0; 16].map(|_| K::any(chance)), answers: [0; 16].map(|_| (chance.word(), chance.word())), used: keys.len() };
    sheet.keys[..keys.len()].copy_from_slice(keys);
    sheet
}

/// Both ways, by the call's number: any but 0 rounds down.
pub fn rounds(chance: &mut Chance) -> [(FindOption, u32); 2] {
    [(FindOption::RoundUp, 0), (FindOption::RoundDown, chance.of(&[1, 1, 1, 2, u32::MAX]))]
}

/// Each place's answer, as a mark and bits.
fn places<K: Key>(tally: &mut Tally, form: &Form, t: &SequenceTracker, ours: &Table, keys: &[K], way: (FindOption, u32), answers: &[(u64, u64)]) {
    let (option, round) = way;
    for (at, (key, &(a, b))) in keys.iter().zip(answers).enumerate() {
        let answer = Answer { a, b, ..OK };
        let place = (at, keys);
        lookups::question(tally, &form.kinds, t, place, round, key.theirs(t, option), answer, &key.equal(t));
        let input = || format!("{place:?}, round {round}, in {}", shown(t));
        tally.ruled(form.alone, input, &key.alone(ours, round), &answer);
    }
}

/// Up to sixteen questions in a sheet.
fn sheet<K: Key>(tally: &mut Tally, chance: &mut Chance, t: &SequenceTracker, ours: &Table, keys: &[K]) {
    for way in rounds(chance) {
        let before = sheet_of(chance, keys);
        let (answer, after) = K::sixteen(ours, before, way.1);
        let mut due = before;
        due.answers[..keys.len()].copy_from_slice(&after.answers[..keys.len()]);
        let input = || format!("{before:?}, round {}, in {}", way.1, shown(t));
        tally.ruled("sheets answered, in all else as they went in", input, &(OK, due), &(answer, after));
        places(tally, &K::SHEET, t, ours, keys, way, &after.answers);
    }
}

/// Any number of questions in a list.
fn list<K: Key>(tally: &mut Tally, chance: &mut Chance, t: &SequenceTracker, ours: &Table, keys: &[K]) {
    for way in rounds(chance) {
        let lent_keys = lend(chance, keys, 0);
        let (mut answers, mut found) = (lend::<K::Partner>(chance, &[], keys.len()), lent::bytes(chance, keys.len()));
        let before = (lent_keys.all(), answers.all(), found.all());
        let answer = K::each(ours, &lent_keys, &mut answers, &mut found, way.1);
        let due = (before.0, holding(&before.1, answers.places()), holding(&before.2, found.places()));
        let input = || format!("{keys:?}, round {}, in {}", way.1, shown(t));
        let after = (lent_keys.all(), answers.all(), found.all());
        tally.ruled("lists of questions answered, in all else as they were", input, &(OK, due), &(answer, after));
        let given: Vec<(u64, u64)> = found.places().iter().zip(answers.places()).map(|(&mark, x)| (mark.into(), x.bits())).collect();
        places(tally, &K::LIST, t, ours, keys, way, &given);
    }
}

/// Questions about a table's keys, in a sheet and in a list of up to `most`: as they come, or in rising or falling order.
fn about<K: Key>(tally: &mut Tally, chance: &mut Chance, t: &SequenceTracker, ours: &Table, most: usize) {
    let (used, few, many) = (chance.index(17), chance.index(17), chance.index(most + 1));
    let n = chance.of(&[few, many]);
    let mut keys: Vec<K> = (0..n.max(used)).map(|_| K::about(chance, t)).collect();
    let order = chance.below(4);
    if order > 1 {
        keys.sort();
    }
    if order == 3 {
        keys.reverse();
    }
    sheet(tally, chance, t, ours, &keys[..used]);
    list(tally, chance, t, ours, &keys[..n]);
}

/// What is looked at beside the answers: the table's own arrays.
const TABLE: &str = "sheets and lists of questions, the table";

/// By both columns. The table's own arrays stay as they are.
fn both(tally: &mut Tally, chance: &mut Chance, t: &SequenceTracker, ours: &Table, most: usize) {
    let before = (ours.seqs.all(), ours.secs.all());
    about::<u64>(tally, chance, t, ours, most);
    about::<i64>(tally, chance, t, ours, most);
    tally.holds(TABLE, || shown(t), &before, &(ours.seqs.all(), ours.secs.all()));
}

/// Every table of `lookups.rs`, and all its keys at once in a list; and in sheets with every number of places used, from any of the keys on.
pub fn exhaustive(tally: &mut Tally) {
    fn all<K: Key>(tally: &mut Tally, chance: &mut Chance, t: &SequenceTracker, ours: &Table, keys: &[K]) {
        list(tally, chance, t, ours, keys);
        for used in 0..=16 {
            let from = chance.index(keys.len());
            let some: Vec<K> = keys.iter().cycle().skip(from).take(used).copied().collect();
            sheet(tally, chance, t, ours, &some);
        }
    }
    let chance = &mut Chance::new(8);
    lookups::every(|t, seqs, secs| {
        let ours = table_of(chance, &t);
        let before = (ours.seqs.all(), ours.secs.all());
        all(tally, chance, &t, &ours, &seqs.collect::<Vec<u64>>());
        all(tally, chance, &t, &ours, &secs.collect::<Vec<i64>>());
        tally.holds(TABLE, || shown(&t), &before, &(ours.seqs.all(), ours.secs.all()));
    });
}

/// What is asked of a table, with so many questions at most.
type Asks<'a> = &'a dyn Fn(&mut Tally, &mut Chance, &SequenceTracker, &Table, usize);

/// A table that is just made, then filled by lists of offers, and halved.
fn offered(tally: &mut Tally, chance: &mut Chance, ask: Asks) {
    let mut t = offers::empty(chance);
    let mut ours = made(tally, chance, &t);
    for _ in 0..1 + chance.below(4) {
        let n = chance.index(20);
        let (seqs, secs) = lists::log(chance, &t, n, t.interval_secs.min(1000));
        lists::list(tally, &mut t, &mut ours, &seqs, &secs);
        ask(tally, chance, &t, &ours, 40);
    }
}

/// A table that is restored, goes on, and is saved and restored again.
fn restored(tally: &mut Tally, chance: &mut Chance, ask: Asks) {
    let n = 1 + chance.index(20);
    let (mut t, mut ours) = stores::begun(tally, chance, n);
    ask(tally, chance, &t, &ours, 40);
    let (seqs, secs) = lists::log(chance, &t, n, t.interval_secs);
    lists::list(tally, &mut t, &mut ours, &seqs, &secs);
    stores::reload(tally, chance, &t, &mut ours, t.interval_secs);
    ask(tally, chance, &t, &ours, 40);
}

/// Asks tables of every kind: with any totals, and one of them full; filled and halved by lists of offers; and restored.
pub fn tables(tally: &mut Tally, chance: &mut Chance, ask: Asks) {
    for i in 0..60 {
        // one table is full: each question's single lookup checks all of it, so that it is asked less
        let (n, most) = if i == 59 { (8192, 100) } else { (chance.index(30), 300) };
        let (seqs, secs) = (chance.seqs(n), chance.secs(n));
        let capacity = (n + chance.index(3)).min(8192) as u32;
        let t = theirs::table(capacity, 60, &seqs, &secs);
        let counted = chance.of_every_sum();
        let totals = chance.totals(counted);
        let ours = table_of(chance, &t).with_totals(totals);
        ask(tally, chance, &t, &ours, most);
    }
    for _ in 0..20 {
        offered(tally, chance, ask);
    }
    for _ in 0..3 {
        restored(tally, chance, ask);
    }
}

pub fn random(tally: &mut Tally, chance: &mut Chance) {
    tables(tally, chance, &both);
}
