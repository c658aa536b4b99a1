//! Halving, by its law (docs/RULES.md): at an even capacity, how far apart the kept pairs stand among all that were recorded, and how far a lookup's answer stands from
//! the pair that it would name if none had been dropped. The Rust's kept pairs are held to it, and its lookups where no two keys are equal. Ours are compared with the
//! Rust's as ever, and all our lookups are held to the law.
use super::super::*;
use super::chance::{Chance, FIRST_SECOND};
use super::lists;
use super::lookups;
use super::offers::{self, made, outside, shown, table_of};
use super::ours::{Answer, Table, NO_TOTALS};
use super::readers::unfit;
use super::stores;
use super::tally::Tally;
use super::theirs::{self, Offer};

/// The columns of a pair. A lookup asks by one of them, and the other has the answer.
const SEQUENCES: usize = 0;
const SECONDS: usize = 1;

/// What is counted of lookups, by the column and by the rounding, up or down.
const LOOKUPS: [[&str; 2]; 2] = [
    ["halving, lookups by sequence, up", "halving, lookups by sequence, down"],
    ["halving, lookups by second, up", "halving, lookups by second, down"],
];

/// A power of two; the list has fewer than 2^64 pairs.
fn two_to(j: usize) -> u128 {
    1 << j.min(64)
}

/// All that was recorded, in order: the pairs of a table at the start, and each offer since that the Rust recorded.
struct Recorded {
    capacity: usize,
    start: usize,
    columns: [Vec<i128>; 2],
    /// how often more pairs stood than the capacity
    halvings: usize,
    /// of each pair, how often that had been when it was the newest; of those at the start, 0
    then: Vec<usize>,
    /// the positions in the list that are left where each halving leaves every other one
    left: Vec<usize>,
    /// whether no two sequences are equal, and no two seconds
    distinct: bool,
}

impl Recorded {
    fn by(t: &SequenceTracker, distinct: bool) -> Recorded {
        let start = t.sequence_numbers.len();
        let columns = [t.sequence_numbers.iter().map(|&x| x.into()).collect(), t.timestamps.iter().map(|&x| x.into()).collect()];
        Recorded { capacity: t.capacity as usize, start, columns, halvings: 0, then: vec![0; start], left: (0..start).collect(), distinct }
    }

    /// One pair more, to a table that had `stood` pairs.
    fn add(&mut self, stood: usize, seq: u64, sec: i64) {
        self.left.push(self.len());
        self.columns[SEQUENCES].push(seq.into());
        self.columns[SECONDS].push(sec.into());
        if stood + 1 > self.capacity {
            self.halvings += 1;
            self.left = self.left.iter().copied().step_by(2).collect();
        }
        self.then.push(self.halvings);
    }

    fn len(&self) -> usize {
        self.then.len()
    }

    fn half(&self) -> usize {
        self.capacity / 2
    }

    /// How many pairs were recorded after the one at a position.
    fn back(&self, at: usize) -> usize {
        self.len() - 1 - at
    }

    fn pair(&self, at: usize) -> (i128, i128) {
        (self.columns[SEQUENCES][at], self.columns[SECONDS][at])
    }

    /// Where the kept pairs stand in the list, if they stand there in their order. Where keys are equal the pairs do not tell it: there they have to be those at the
    /// positions that are left.
    fn positions(&self, t: &SequenceTracker) -> Option<Vec<usize>> {
        let kept = t.sequence_numbers.iter().zip(&t.timestamps).map(|(&seq, &sec)| (seq.into(), sec.into()));
        if self.distinct {
            let mut list = 0..self.len();
            return kept.map(|pair| list.find(|&at| self.pair(at) == pair)).collect();
        }
        kept.eq(self.left.iter().map(|&at| self.pair(at))).then(|| self.left.clone())
    }

    /// How often the table is halved, by the law, while so many pairs are recorded.
    fn due_halvings(&self, recorded: usize) -> usize {
        match recorded.checked_sub(self.capacity + 1) {
            Some(more) => 1 + more / self.half(),
            None => 0,
        }
    }

    /// Where the kept pairs stand in the list, by the law: a pair stays where its position, less half the capacity for each halving by then, is a multiple of two to as
    /// many as came since.
    fn due_positions(&self) -> Vec<usize> {
        let all = self.due_halvings(self.len());
        let stays = |&at: &usize| {
            let by_then = self.due_halvings(at + 1);
            (at - by_then * self.half()) as u128 % two_to(all - by_then) == 0
        };
        (0..self.len()).filter(stays).collect()
    }

    /// What the distance of an answer from the pair named has to be below, by the law.
    fn bound(&self, round: u32, named: usize, answered: usize) -> u128 {
        let holds = |j: usize| {
            let reach = j * self.half();
            let by_older = self.back(named.min(answered)) <= reach;
            let divided = self.half() as u128 % two_to(j) == 0 && self.back(named) <= reach;
            by_older || round == 1 && (divided || self.back(named) as u128 + two_to(j) <= reach as u128 + 1)
        };
        two_to((0..self.halvings).find(|&j| holds(j)).unwrap_or(self.halvings))
    }

    /// Where the pair stands that was answered. Where keys are equal the answer does not tell it: there it has to be the partner of the kept pair that the rules name.
    fn answered(&self, kept: &[usize], by: usize, key: i128, round: u32, answer: i128) -> Option<usize> {
        let partners = &self.columns[1 - by];
        if self.distinct {
            return partners.binary_search(&answer).ok();
        }
        let i = named(kept, |&at| self.columns[by][at], key, round)?;
        Some(kept[i]).filter(|&at| partners[at] == answer)
    }

    /// What is wrong with an answer, if something is: the position that is named, and the one that was answered.
    fn wrong(&self, kept: &[usize], by: usize, key: i128, round: u32, answer: Option<i128>) -> Option<(Option<usize>, Option<usize>)> {
        let due = named(&self.columns[by], |&k| k, key, round);
        let answered = answer.and_then(|partner| self.answered(kept, by, key, round, partner));
        let right = match (due, answered) {
            (Some(due), Some(answered)) => {
                let (low, high) = if round == 0 { (due, answered) } else { (answered, due) };
                low <= high && ((high - low) as u128) < self.bound(round, due, answered)
            }
            _ => due.is_none() && answer.is_none(),
        };
        (!right).then_some((due, answered))
    }
}

/// The index that a lookup's rule names: with RoundUp the first whose key is not below the one asked for, with RoundDown the last whose key is not above it.
fn named<T>(pairs: &[T], key_of: impl Fn(&T) -> i128, key: i128, round: u32) -> Option<usize> {
    if round == 0 {
        Some(pairs.partition_point(|x| key_of(x) < key)).filter(|&i| i < pairs.len())
    } else {
        pairs.partition_point(|x| key_of(x) <= key).checked_sub(1)
    }
}

/// The first two neighbours that stand further apart than they may, and how far they may, by the older one.
fn too_far(kept: &[usize], may: impl Fn(usize) -> u128) -> Option<(usize, usize, u128)> {
    kept.windows(2).map(|two| (two[0], two[1], may(two[0]))).find(|&(older, newer, may)| (newer - older) as u128 > may)
}

/// Both tables, and what was recorded in them.
struct Run {
    t: SequenceTracker,
    ours: Table,
    recorded: Recorded,
}

impl Run {
    fn from(t: SequenceTracker, ours: Table, distinct: bool) -> Run {
        let recorded = Recorded::by(&t, distinct);
        Run { t, ours, recorded }
    }

    fn empty(tally: &mut Tally, chance: &mut Chance, capacity: u32, interval: u64, distinct: bool) -> Run {
        let t = SequenceTracker::with_config(capacity, interval);
        let ours = made(tally, chance, &t);
        Run::from(t, ours, distinct)
    }

    fn shown(&self) -> String {
        let Recorded { start, halvings, columns, .. } = &self.recorded;
        format!("{start} pairs at the start, {halvings} halvings, recorded {columns:?}, kept {}", shown(&self.t))
    }

    /// Holds the Rust's kept pairs to the law, and our total to the length of the list. Where the kept pairs stand in it.
    fn hold(&self, tally: &mut Tally) -> Vec<usize> {
        let input = || self.shown();
        let recorded = &self.recorded;
        let (n, halvings, half) = (recorded.len(), recorded.halvings, recorded.half());
        let counted = (halvings, self.t.sequence_numbers.len() + halvings * half);
        tally.same("halving, how often, and how many are kept", input, &counted, &(recorded.due_halvings(n), n));
        let total = recorded.start as u64 + self.ours.state.totals.recorded;
        tally.ruled("halving, how many were recorded, by the total", input, &(n as u64), &total);
        // where a kept pair is not in the list there are no positions, so that the first is missing
        let kept = recorded.positions(&self.t).unwrap_or_default();
        let ends = (kept.first().copied(), kept.last().copied());
        tally.same("halving, the first and the newest kept, and all in order", input, &ends, &((n > 0).then_some(0), n.checked_sub(1)));
        tally.same("halving, which pairs are kept, by where they stand", input, &kept, &recorded.due_positions());
        let by_all = too_far(&kept, |_| two_to(halvings));
        tally.same("halving, neighbours by how often", input, &by_all, &None);
        // of the bounds that reach as far back, the least
        let by_age = too_far(&kept, |older| two_to(recorded.back(older).div_ceil(half)));
        tally.same("halving, neighbours by age", input, &by_age, &None);
        // the first such power of two reaches the least
        let reach = (1..).find(|&j| recorded.capacity as u128 <= two_to(j)).unwrap() * half;
        let too_old = kept.iter().skip(1).find(|&&at| recorded.back(at) >= reach);
        tally.same("halving, how far back pairs but the first are kept", input, &too_old, &None);
        // of the moments, the one at which the older was the newest: it has the least bound
        let since = too_far(&kept, |older| two_to(halvings - recorded.then[older]));
        tally.same("halving, neighbours by how often since", input, &since, &None);
        kept
    }

    /// A key asked for both ways, on both sides: the answers are compared as ever, and held to the law.
    fn ask(&self, tally: &mut Tally, kept: &[usize], by: usize, key: i128) {
        let Run { t, ours, recorded } = self;
        let (seq, sec) = (key as u64, key as i64);
        if by == SEQUENCES {
            lookups::by_sequence(tally, t, ours, seq);
        } else {
            lookups::by_second(tally, t, ours, sec);
        }
        let given = |answer: Answer| (answer.a == 1).then_some(answer.b);
        for (option, round) in lookups::ROUNDS {
            let (theirs, ours) = if by == SEQUENCES {
                let second = |bits| i128::from(bits as i64);
                (t.find_ts(seq, option).map(|d| d.timestamp().into()), given(ours.find_ts(seq, round)).map(second))
            } else {
                (t.find_seq(theirs::instant(sec), option).map(i128::from), given(ours.find_seq(sec, round)).map(i128::from))
            };
            let kind = LOOKUPS[by][round as usize];
            let input = || format!("{key}, the Rust {theirs:?}, ours {ours:?}, {}", self.shown());
            tally.ruled(kind, input, &None, &recorded.wrong(kept, by, key, round, ours));
            if recorded.distinct {
                tally.same(kind, input, &recorded.wrong(kept, by, key, round, theirs), &None);
            }
        }
    }

    /// Asks by keys about those of the list: of any pair, and of those beside a kept one, for which the answer stands furthest off.
    fn ask_about(&self, tally: &mut Tally, chance: &mut Chance, kept: &[usize]) {
        let last = kept.len().saturating_sub(1);
        let any = chance.index(last + 1);
        let i = chance.of(&[0, any, any, last]);
        let at = |i: usize| kept.get(i).copied().unwrap_or(0);
        let any = chance.index(self.recorded.len().max(1));
        let about = chance.of(&[any, at(i), at(i) + 1, at(i + 1).saturating_sub(1)]);
        for by in [SEQUENCES, SECONDS] {
            let near = chance.below(3) as i128 - 1;
            self.ask(tally, kept, by, self.recorded.columns[by].get(about).copied().unwrap_or(9) + near);
        }
    }

    /// Up to `most` offers on both sides: alone, as a list or as another table's pairs. They end where the table is full, where it was halved, and where one is refused.
    fn offer(&mut self, tally: &mut Tally, chance: &mut Chance, most: usize) {
        let Run { t, ours, recorded } = self;
        let (mut ahead, mut seqs, mut secs) = (t.clone(), vec![], vec![]);
        let seldom = recorded.capacity.max(16) as u64;
        while seqs.len() < most {
            let (seq, sec) = next(chance, &ahead, recorded.distinct, seldom);
            seqs.push(seq);
            secs.push(sec);
            let stood = ahead.sequence_numbers.len();
            match theirs::offer(&mut ahead, seq, sec) {
                Offer::Recorded => recorded.add(stood, seq, sec),
                Offer::Skipped(_) => continue,
                Offer::Refused(_) => break,
            }
            if stood + 1 >= recorded.capacity {
                break;
            }
        }
        if seqs.len() == 1 {
            offers::offer(tally, t, ours, seqs[0], secs[0]);
        } else if unfit(&seqs, &secs).is_none() && chance.below(2) == 0 {
            lists::extend(tally, chance, t, ours, &theirs::table(seqs.len() as u32, 0, &seqs, &secs));
        } else {
            lists::list(tally, t, ours, &seqs, &secs);
        }
    }

    /// Offers until the list has so many pairs. The law is held to before them and after each; at a great capacity, after many.
    fn go_on(&mut self, tally: &mut Tally, chance: &mut Chance, until: usize) {
        loop {
            let kept = self.hold(tally);
            for _ in 0..3 {
                self.ask_about(tally, chance, &kept);
            }
            if self.recorded.len() >= until {
                return;
            }
            let many = 1 + chance.index(self.recorded.capacity);
            let most = if self.recorded.capacity < 1000 { chance.of(&[1, 1, 1, 6]) } else { many };
            self.offer(tally, chance, most);
        }
    }
}

/// What is offered next: mostly a pair that is recorded. Some are skipped, for either reason, and one in `seldom` is refused by 16 or 17.
fn next(chance: &mut Chance, t: &SequenceTracker, distinct: bool, seldom: u64) -> (u64, i64) {
    let (Some(&last_seq), Some(last_sec)) = (t.sequence_numbers.last(), t.last_recorded_ts) else {
        return (chance.of(&[5, 1 << 40, 1 << 63]), chance.of(&[FIRST_SECOND, -1000, 1_700_000_000]));
    };
    let least = u64::from(distinct);
    let seq = last_seq + least + chance.below(3);
    let sec = last_sec + (t.interval_secs + least + chance.below(3)) as i64;
    if chance.below(seldom) == 0 {
        return if chance.below(2) == 0 { (last_seq - 1 - chance.below(5), sec) } else { (seq, outside(chance)) };
    }
    match chance.below(16) {
        0 => (seq, last_sec - 1 - chance.below(50) as i64),
        1 if t.interval_secs > 0 => (seq, last_sec + chance.below(t.interval_secs) as i64),
        _ => (seq, sec),
    }
}

/// An interval, and whether no two keys are to be equal.
fn settings(chance: &mut Chance) -> (u64, bool) {
    (chance.of(&[0, 0, 1, 10, 60, 1000]), chance.below(2) == 0)
}

/// A run at a small capacity, from an empty table or from one that has pairs: these are taken as recorded.
fn short(tally: &mut Tally, chance: &mut Chance, capacity: u32) {
    let (interval, distinct) = settings(chance);
    let any = chance.index(capacity as usize + 1);
    let start = chance.of(&[0, any, capacity as usize]);
    let mut t = SequenceTracker::with_config(capacity, interval);
    while t.sequence_numbers.len() < start {
        let (seq, sec) = next(chance, &t, distinct, 16);
        theirs::offer(&mut t, seq, sec);
    }
    let ours = if start == 0 { made(tally, chance, &t) } else { table_of(chance, &t).with_totals(NO_TOTALS) };
    let mut run = Run::from(t, ours, distinct);
    let until = run.recorded.capacity + chance.index(50) * run.recorded.half();
    run.go_on(tally, chance, until);
}

/// A run at a great capacity. At 8,192, which a restore makes, the table is saved and restored, and goes on from there with a fresh count.
fn long(tally: &mut Tally, chance: &mut Chance, capacity: u32) {
    let (interval, distinct) = settings(chance);
    let mut run = Run::empty(tally, chance, capacity, interval, distinct);
    let (any, most) = (chance.index(28), 28 * run.recorded.half());
    let until = chance.of(&[any, any * run.recorded.half(), most]);
    run.go_on(tally, chance, until);
    if capacity == 8192 && stores::reload(tally, chance, &run.t, &mut run.ours, interval) {
        let t = theirs::at_interval(theirs::read(&run.t.to_bytes()).expect("an image that the Rust wrote"), interval);
        run = Run::from(t, run.ours, distinct);
        run.go_on(tally, chance, most - until);
    }
}

/// At an odd capacity, and at 0, the law does not hold: a halving loses the newest pair. Only the first pair at 0, which is the only one, is kept.
fn odd(tally: &mut Tally, chance: &mut Chance) {
    let mut t = SequenceTracker::with_config(chance.of(&[0, 1, 3, 5, 7, 15, 99]), settings(chance).0);
    let mut ours = made(tally, chance, &t);
    for _ in 0..chance.below(400) {
        let (seq, sec) = next(chance, &t, true, 16);
        let stood = t.clone();
        let recorded = offers::offer(tally, &mut t, &mut ours, seq, sec).tally.recorded == 1;
        let before = stood.sequence_numbers.len();
        if recorded && before + 1 > stood.capacity as usize {
            let input = || format!("({seq}, {sec}) offered to {}", shown(&stood));
            // the newest second is above every other
            tally.same("halving at an odd capacity or 0, whether the newest is kept", input, &t.timestamps.contains(&sec), &(before == 0));
        }
    }
}

/// At capacities 0, 1 and 3: the kept pairs after these, each of which is recorded. The last of them has a lower sequence than one that was recorded, and lost, before.
fn odd_by_hand(tally: &mut Tally, chance: &mut Chance) {
    let pairs = [(1, 10), (2, 20), (3, 30), (4, 40), (3, 45)];
    let [first, third, last] = [pairs[0], pairs[2], pairs[4]];
    for (capacity, n, due) in [(0, 2, vec![first]), (1, 2, vec![first]), (3, 4, vec![first, third]), (3, 5, vec![first, third, last])] {
        let mut t = SequenceTracker::with_config(capacity, 0);
        let mut ours = made(tally, chance, &t);
        let recorded = pairs[..n].iter().filter(|&&(seq, sec)| offers::offer(tally, &mut t, &mut ours, seq, sec).tally.recorded == 1).count();
        let kept: Vec<(u64, i64)> = t.sequence_numbers.iter().copied().zip(t.timestamps.iter().copied()).collect();
        let input = || format!("{:?} offered at capacity {capacity}", &pairs[..n]);
        tally.same("halving at an odd capacity or 0, the kept pairs", input, &(recorded, kept), &(n, due));
    }
}

/// Every even capacity up to 20, until the table was halved twelve times: after each offer every key that was recorded is asked for, and every one between.
pub fn exhaustive(tally: &mut Tally) {
    let chance = &mut Chance::new(7);
    for capacity in (2..=20).step_by(2) {
        let mut run = Run::empty(tally, chance, capacity, 0, true);
        for i in 0..7 * i128::from(capacity) {
            let (seq, sec) = (2 * i as u64 + 1, 2 * i as i64);
            run.recorded.add(run.t.sequence_numbers.len(), seq, sec);
            offers::offer(tally, &mut run.t, &mut run.ours, seq, sec);
            let kept = run.hold(tally);
            for key in -1..=2 * i + 1 {
                run.ask(tally, &kept, SEQUENCES, key + 1);
                run.ask(tally, &kept, SECONDS, key);
            }
        }
    }
    odd_by_hand(tally, chance);
}

pub fn random(tally: &mut Tally, chance: &mut Chance) {
    for capacity in [2, 4, 6, 8, 10, 14, 32] {
        short(tally, chance, capacity);
        short(tally, chance, capacity);
        odd(tally, chance);
    }
    let other = chance.of(&[100, 1000, 8190]);
    long(tally, chance, other);
    long(tally, chance, 8192);
}
