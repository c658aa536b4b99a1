//! Why a lookup answers as it does. The answer: beside the Rust's lookup, held as `lookups.rs` holds one, and beside our own single lookup. The reason and its
//! positions, which the Rust does not tell: beside a look at every key that the Rust's table keeps, by the rules (docs/RULES.md). What refuses them is in `refusals.rs`.
use super::super::*;
use super::chance::Chance;
use super::lookups::{self, Kinds};
use super::offers::{shown, table_of};
use super::ours::{Answer, Table, WhyAnswer, OK};
use super::questions::{self, Form, Key};
use super::tally::Tally;

/// What is counted of one column: the answers, and the reasons, those of a missing neighbour apart.
pub struct Reasons {
    form: Form,
    exact: &'static str,
    rounded_up: &'static str,
    from_below_the_first: &'static str,
    rounded_down: &'static str,
    from_above_the_last: &'static str,
    before_first: &'static str,
    after_last: &'static str,
    empty: &'static str,
}

pub const BY_SEQUENCE: Reasons = Reasons {
    form: Form {
        kinds: Kinds {
            other: "answers with a reason, by sequence",
            equal: "answers with a reason, by a sequence that is there",
            lowest: "answers with a reason, by one of several equal sequences, up",
            highest: "answers with a reason, by one of several equal sequences, down",
        },
        alone: "answers with a reason, by sequence, as one lookup",
    },
    exact: "reasons by sequence, exact",
    rounded_up: "reasons by sequence, rounded up",
    from_below_the_first: "reasons by sequence, rounded up from below the first",
    rounded_down: "reasons by sequence, rounded down",
    from_above_the_last: "reasons by sequence, rounded down from above the last",
    before_first: "reasons by sequence, before the first",
    after_last: "reasons by sequence, after the last",
    empty: "reasons by sequence, table empty",
};

pub const BY_SECOND: Reasons = Reasons {
    form: Form {
        kinds: Kinds {
            other: "answers with a reason, by second",
            equal: "answers with a reason, by a second that is there",
            lowest: "answers with a reason, by one of several equal seconds, up",
            highest: "answers with a reason, by one of several equal seconds, down",
        },
        alone: "answers with a reason, by second, as one lookup",
    },
    exact: "reasons by second, exact",
    rounded_up: "reasons by second, rounded up",
    from_below_the_first: "reasons by second, rounded up from below the first",
    rounded_down: "reasons by second, rounded down",
    from_above_the_last: "reasons by second, rounded down from above the last",
    before_first: "reasons by second, before the first",
    after_last: "reasons by second, after the last",
    empty: "reasons by second, table empty",
};

/// What is due by the rules, and as what it is counted. Every key that the Rust keeps is looked at, from the first to the last; no search is used.
fn due<K: Key>(t: &SequenceTracker, key: K, option: &FindOption) -> (&'static str, WhyAnswer) {
    let kept = K::kept(t);
    let (mut equal, mut smaller, mut greater) = (vec![], None, None);
    for (at, k) in kept.iter().enumerate() {
        if *k == key {
            equal.push(at);
        } else if *k < key {
            smaller = Some(at);
        } else if greater.is_none() {
            greater = Some(at);
        }
    }
    let nothing = WhyAnswer { answer: OK, reason: 0, has_below: 0, has_above: 0, position: 0, below: 0, above: 0 };
    let answers = |reason, position: usize| WhyAnswer { answer: Answer { a: 1, b: K::Partner::kept(t)[position].bits(), ..OK }, reason, position, ..nothing };
    let up = matches!(option, FindOption::RoundUp);
    if kept.is_empty() {
        return (K::WHY.empty, WhyAnswer { reason: 6, ..nothing });
    }
    if let (Some(&lowest), Some(&highest)) = (equal.first(), equal.last()) {
        return (K::WHY.exact, answers(1, if up { lowest } else { highest }));
    }
    match (up, smaller, greater) {
        (true, Some(below), Some(above)) => (K::WHY.rounded_up, WhyAnswer { has_below: 1, has_above: 1, below, above, ..answers(2, above) }),
        (true, None, Some(above)) => (K::WHY.from_below_the_first, WhyAnswer { has_above: 1, above, ..answers(2, above) }),
        (true, _, None) => (K::WHY.after_last, WhyAnswer { reason: 5, ..nothing }),
        (false, Some(below), Some(above)) => (K::WHY.rounded_down, WhyAnswer { has_below: 1, has_above: 1, below, above, ..answers(3, below) }),
        (false, Some(below), None) => (K::WHY.from_above_the_last, WhyAnswer { has_below: 1, below, ..answers(3, below) }),
        (false, None, _) => (K::WHY.before_first, WhyAnswer { reason: 4, ..nothing }),
    }
}

/// One question, both ways.
fn question<K: Key>(tally: &mut Tally, chance: &mut Chance, t: &SequenceTracker, ours: &Table, key: K) {
    let equal = key.equal(t);
    for (option, round) in questions::rounds(chance) {
        let said = key.why(ours, round);
        let input = || format!("{key:?}, round {round}, in {}", shown(t));
        let (kind, rule) = due(t, key, &option);
        lookups::question(tally, &K::WHY.form.kinds, t, key, round, key.theirs(t, option), said.answer, &equal);
        tally.ruled(K::WHY.form.alone, input, &key.alone(ours, round), &said.answer);
        tally.ruled(kind, input, &rule, &said);
    }
}

/// What is looked at beside the answers: the table's own arrays.
const TABLE: &str = "reasons, the table";

/// So many questions about a table's keys, by both columns. The table's own arrays stay as they are.
fn about(tally: &mut Tally, chance: &mut Chance, t: &SequenceTracker, ours: &Table, most: usize) {
    let before = (ours.seqs.all(), ours.secs.all());
    for _ in 0..most {
        let (seq, sec) = (u64::about(chance, t), i64::about(chance, t));
        question(tally, chance, t, ours, seq);
        question(tally, chance, t, ours, sec);
    }
    tally.holds(TABLE, || shown(t), &before, &(ours.seqs.all(), ours.secs.all()));
}

/// Every table of `lookups.rs`, asked by each of its keys.
pub fn exhaustive(tally: &mut Tally) {
    let chance = &mut Chance::new(9);
    lookups::every(|t, seqs, secs| {
        let ours = table_of(chance, &t);
        let before = (ours.seqs.all(), ours.secs.all());
        seqs.for_each(|seq| question(tally, chance, &t, &ours, seq));
        secs.for_each(|sec| question(tally, chance, &t, &ours, sec));
        tally.holds(TABLE, || shown(&t), &before, &(ours.seqs.all(), ours.secs.all()));
    });
}

/// Of the seconds that the Rust cannot be asked, as chrono has no such date, ours alone are asked: both ends of 64 bits.
fn far(tally: &mut Tally, t: &SequenceTracker, ours: &Table) {
    for (option, round) in lookups::ROUNDS {
        for sec in [i64::MIN, i64::MIN + 1, i64::MAX - 1, i64::MAX] {
            let (kind, rule) = due(t, sec, &option);
            tally.ruled(kind, || format!("{sec}, round {round}, in {}", shown(t)), &rule, &ours.why_seq(sec, round));
        }
    }
}

pub fn random(tally: &mut Tally, chance: &mut Chance) {
    questions::tables(tally, chance, &|tally, chance, t, ours, most| {
        about(tally, chance, t, ours, most / 5);
        far(tally, t, ours);
    });
}
