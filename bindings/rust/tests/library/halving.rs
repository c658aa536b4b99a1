//! The law of halving (docs/RULES.md), at even capacities: how often a table was halved, how far apart its pairs stand among all that were recorded, and how far a lookup
//! answers from the pair that it would name if none had been dropped. And where it does not hold.
use crate::chance::Chance;
use crate::run::Case;
use crate::tables::{kept, pair, table};
use skutlaneb::FindOption::{self, RoundDown, RoundUp};
use skutlaneb::{Inserted, Second, SequenceTracker, TrackedSeq};
use std::collections::{BTreeMap, BTreeSet};
use std::ops::RangeInclusive;

pub const CASES: &[Case] = &[
    ("at capacity 8,192 each row of README's table holds over 200,000 pairs, the first twelve are attained, and 53,247 back is the furthest but the first", rows),
    ("after offers of every kind the pairs stand as the law says, from an empty table and from one with pairs", neighbours),
    ("of a restored table the law counts from its pairs on, and its total is what was recorded since", restored),
    ("a lookup answers as near as the law says to the pair that it would name if none had been dropped", lookups),
    ("so it does at capacity 8,192", lookups_8192),
    ("at odd capacities and at 0 the newest pair is lost", odd),
];

/// A power of two, or a number above every position.
fn two_to(j: usize) -> usize {
    1 << j.min(60)
}

/// How often a table was halved, by the law, once so many pairs were recorded.
fn due_halvings(capacity: usize, recorded: usize) -> usize {
    if recorded <= capacity {
        0
    } else {
        1 + (recorded - capacity - 1) / (capacity / 2)
    }
}

/// Where the kept pairs stand among so many recorded, by the law: a pair stays where its position, less half the capacity for each halving by then, is a multiple of two to
/// as many as came since.
fn due_positions(capacity: usize, recorded: usize) -> Vec<usize> {
    let stays = |&at: &usize| {
        let by_then = due_halvings(capacity, at + 1);
        (at - by_then * (capacity / 2)) % two_to(due_halvings(capacity, recorded) - by_then) == 0
    };
    (0..recorded).filter(stays).collect()
}

/// The rows of README's table, at capacity 8,192 and one pair each ten seconds: of two neighbours of which the older lies at most j * 4,096 pairs back, at most 2^j
/// apart, which is 2^j * 10 seconds.
const ROWS: RangeInclusive<usize> = 1..=13;

fn rows() {
    let mut tracker = SequenceTracker::new();
    let (mut recorded, mut attained, mut furthest) = (0, BTreeSet::new(), 0);
    // right before each halving, right after it, and half-way to the next
    let moments = (0..=46).map(|halvings| 8192 + 4096 * halvings).flat_map(|full| [full, full + 1, full + 2000]);
    for moment in moments.chain([200_000]) {
        let offers: Vec<TrackedSeq> = (recorded..moment).map(|i| pair(3 * i as u64, 10 * i as i64)).collect();
        assert_eq!(tracker.insert_all(&offers).unwrap().recorded, offers.len() as u64);
        recorded = moment;
        let pairs = kept(&tracker);
        if recorded % 4096 == 1 {
            assert_eq!((pairs.len(), pairs[4096].0 - pairs[4095].0), (4097, 3 * 2));
        }
        // all but the first
        furthest = furthest.max(recorded - 1 - pairs[1].0 as usize / 3);
        for two in pairs.windows(2) {
            let (apart, seconds) = ((two[1].0 - two[0].0) as usize / 3, two[1].1 - two[0].1);
            let back = recorded - 1 - two[0].0 as usize / 3;
            for row in ROWS.filter(|row| back <= row * 4096) {
                assert!(apart <= 1 << row && seconds <= 10 << row, "row {row}, {two:?} after {recorded} pairs");
                if apart == 1 << row {
                    attained.insert(row);
                }
            }
        }
    }
    assert!(attained.into_iter().eq(1..=12));
    assert_eq!(furthest, 53_247);
    assert_eq!((tracker.totals().recorded, due_halvings(8192, recorded)), (200_000, 47));
}

/// A table, and all that was recorded in it, in order: its pairs at the start, and each offer since.
struct Run {
    tracker: SequenceTracker,
    start: usize,
    /// the total at the start
    before: u64,
    recorded: Vec<(u64, i64)>,
    /// how often the table showed fewer pairs than before and those recorded
    halvings: usize,
    /// of each recorded pair, how often that had been when it was the newest
    then: Vec<usize>,
}

impl Run {
    fn from(tracker: SequenceTracker) -> Run {
        let recorded = kept(&tracker);
        let (start, before) = (recorded.len(), tracker.totals().recorded);
        Run { tracker, start, before, recorded, halvings: 0, then: vec![0; start] }
    }

    /// Goes on after offers that were recorded, to a table that had `stood` pairs: several, or one that may have halved it.
    fn add(&mut self, stood: usize, offers: &[TrackedSeq]) {
        self.halvings += usize::from(self.tracker.len() < stood + offers.len());
        self.recorded.extend(offers.iter().map(|&offered| <(u64, i64)>::from(offered)));
        self.then.resize(self.recorded.len(), self.halvings);
    }

    fn half(&self) -> usize {
        self.tracker.capacity() as usize / 2
    }

    fn back(&self, at: usize) -> usize {
        self.recorded.len() - 1 - at
    }

    /// Where the kept pairs stand among those recorded, of which no two are equal.
    fn positions(&self) -> Vec<usize> {
        kept(&self.tracker).iter().map(|pair| self.recorded.binary_search(pair).unwrap()).collect()
    }

    fn check(&self) {
        let (half, n) = (self.half(), self.recorded.len());
        assert_eq!(n, self.start + (self.tracker.totals().recorded - self.before) as usize);
        assert_eq!((self.halvings, self.tracker.len() + self.halvings * half), (due_halvings(2 * half, n), n));
        let at = self.positions();
        assert_eq!(at, due_positions(2 * half, n));
        assert_eq!((at.first().copied(), at.last().copied()), ((n > 0).then_some(0), n.checked_sub(1)));
        let reach = (1..).find(|&j| 2 * half <= two_to(j)).unwrap() * half;
        assert!(at.iter().skip(1).all(|&at| self.back(at) < reach));
        for two in at.windows(2) {
            let (older, newer) = (two[0], two[1]);
            assert!(older < newer);
            let bounds = [self.halvings, self.back(older).div_ceil(half), self.halvings - self.then[older]];
            assert!(bounds.into_iter().all(|j| newer - older <= two_to(j)), "{two:?}, {bounds:?}, capacity {}, {n} recorded", 2 * half);
        }
    }

    /// That the pair answered stands as near to the one that is due as the law says.
    fn near(&self, round: FindOption, due: Option<usize>, answered: Option<usize>) {
        let (Some(due), Some(answered)) = (due, answered) else {
            return assert_eq!(due, answered);
        };
        let off = if round == RoundUp { answered.checked_sub(due) } else { due.checked_sub(answered) };
        let holds = |j: usize| {
            let (half, reach) = (self.half(), j * self.half());
            let divided = half % two_to(j) == 0 && self.back(due) <= reach;
            self.back(due.min(answered)) <= reach || round == RoundDown && (divided || self.back(due) + two_to(j) <= reach + 1)
        };
        let mut bounds = (0..self.halvings).filter(|&j| holds(j)).chain([self.halvings]);
        assert!(bounds.all(|j| off.unwrap() < two_to(j)), "{due} is due, {answered} answered, {round:?}, {} recorded", self.recorded.len());
    }

    /// Both lookups by keys about a recorded pair. What answers is told by its partner alone, so a lookup is made where no two partners are equal.
    fn ask(&self, at: usize, rising: Rising) {
        let (seq, second) = self.recorded[at];
        for round in [RoundUp, RoundDown] {
            for seq in [seq - 1, seq, seq + 1].into_iter().filter(|_| rising.seconds) {
                let answer = self.tracker.find_ts(seq, round).unwrap();
                let answered = answer.map(|second| self.recorded.binary_search_by_key(&second.0, |pair| pair.1).unwrap());
                self.near(round, named(&self.recorded, |pair| pair.0, seq, round), answered);
            }
            for second in [second - 1, second, second + 1].into_iter().filter(|_| rising.seqs) {
                let answer = self.tracker.find_seq(second, round).unwrap();
                let answered = answer.map(|seq| self.recorded.binary_search_by_key(&seq.0, |pair| pair.0).unwrap());
                self.near(round, named(&self.recorded, |pair| pair.1, second, round), answered);
            }
        }
    }

    /// Asks about the pairs at both ends of gaps, and those beside them: of each size of gap, in the first and in the last.
    fn ask_beside_gaps(&self, rising: Rising) {
        let mut gaps: BTreeMap<usize, Vec<usize>> = BTreeMap::new();
        for two in self.positions().windows(2) {
            gaps.entry(two[1] - two[0]).or_default().push(two[0]);
        }
        for (gap, olders) in gaps {
            for older in [olders[0], olders[olders.len() - 1]] {
                [older, older + 1, older + gap - 1, older + gap].into_iter().for_each(|at| self.ask(at, rising));
            }
        }
    }
}

/// The position of the pair that a lookup would name if none had been dropped.
fn named<K: Ord>(recorded: &[(u64, i64)], key_of: impl Fn(&(u64, i64)) -> K, key: K, round: FindOption) -> Option<usize> {
    match round {
        RoundUp => Some(recorded.partition_point(|pair| key_of(pair) < key)).filter(|&at| at < recorded.len()),
        RoundDown => recorded.partition_point(|pair| key_of(pair) <= key).checked_sub(1),
    }
}

/// Which of both rises with each recorded pair; the other stays at times.
#[derive(Clone, Copy)]
struct Rising {
    seqs: bool,
    seconds: bool,
}

/// An offer after the newest pair: mostly recorded, at times skipped, for either reason, or refused by 17 or 16.
fn next(chance: &mut Chance, tracker: &SequenceTracker, rising: Rising) -> TrackedSeq {
    let Some(newest) = tracker.pairs().next_back() else {
        return pair(10, -100);
    };
    let (seq, last) = newest.into();
    let interval = tracker.interval_secs() as i64;
    let more = seq + u64::from(rising.seqs) + chance.below(3);
    let second = last + interval + i64::from(rising.seconds) + chance.below(3) as i64;
    match chance.below(20) {
        0 => pair(more, last - 1),
        1 if interval > 0 => pair(more, last + interval - 1),
        2 => pair(seq - 1, second),
        3 => pair(more, i64::MAX),
        _ => pair(more, second),
    }
}

/// Runs of chance at small even capacities, with a look after each offer: from an empty table, and then from the pairs that it has come to.
fn runs(look: impl Fn(&Run, Rising)) {
    let mut chance = Chance(20_160_101);
    for capacity in [2, 4, 6, 8, 10, 14, 32] {
        for (interval_secs, seqs, seconds) in [(0, true, true), (0, true, false), (0, false, true), (1, false, true), (10, true, true)] {
            let rising = Rising { seqs, seconds };
            let mut run = Run::from(table(capacity, interval_secs, &[]));
            for _ in 0..2 {
                while run.halvings < 24 {
                    let offered = next(&mut chance, &run.tracker, rising);
                    let stood = run.tracker.len();
                    if run.tracker.insert(offered) == Ok(Inserted::Recorded) {
                        run.add(stood, &[offered]);
                    }
                    look(&run, rising);
                }
                run = Run::from(run.tracker);
            }
        }
    }
}

fn neighbours() {
    runs(|run, _| run.check());
}

fn lookups() {
    // where a gap is new, and where what was recorded since is most
    runs(|run, rising| {
        if [run.half() + 1, 2 * run.half()].contains(&run.tracker.len()) {
            run.ask_beside_gaps(rising);
        }
    });
}

/// So many pairs more, at the table's interval, in lists that end where the table is full, and where it was halved.
fn grow(run: &mut Run, mut more: usize) {
    while more > 0 {
        let (seq, second) = run.tracker.pairs().next_back().map_or((1, 0), <(u64, i64)>::from);
        let (stood, interval) = (run.tracker.len(), run.tracker.interval_secs());
        let n = (2 * run.half() - stood).clamp(1, 1500).min(more);
        let offers: Vec<TrackedSeq> = (1..=n as u64).map(|i| pair(seq + 3 * i, second + (interval * i) as i64)).collect();
        assert_eq!(run.tracker.insert_all(&offers).unwrap().recorded, n as u64);
        run.add(stood, &offers);
        run.check();
        more -= n;
    }
}

fn restored() {
    for start in [0, 1, 4097, 8191, 8192] {
        let mut run = Run::from(table(8192, 10, &[]));
        grow(&mut run, start);
        // the second time it is a table that was halved
        for _ in 0..2 {
            let back = SequenceTracker::from_bytes(&run.tracker.to_bytes_strict().unwrap()).unwrap();
            assert_eq!((back.totals().recorded, kept(&back)), (0, kept(&run.tracker)));
            run = Run::from(back);
            grow(&mut run, 15_000);
            assert!(run.halvings > 1);
        }
    }
}

fn lookups_8192() {
    let mut run = Run::from(SequenceTracker::new());
    // right after the 1st, the 5th and the 13th halving, and right before the 14th
    for until in [8193, 24_577, 57_345, 61_440] {
        let more = until - run.recorded.len();
        grow(&mut run, more);
        run.ask_beside_gaps(Rising { seqs: true, seconds: true });
    }
}

fn odd() {
    for capacity in [0, 1] {
        let tracker = table(capacity, 0, &[(1, 10), (2, 20)]);
        assert_eq!((kept(&tracker), tracker.totals().recorded), (vec![(1, 10)], 2));
        assert_eq!(tracker.find_ts(2, RoundUp), Ok(None));
    }
    let mut tracker = table(3, 0, &[(1, 10), (2, 20), (3, 30), (4, 40)]);
    assert_eq!((kept(&tracker), tracker.totals().recorded), (vec![(1, 10), (3, 30)], 4));
    assert_eq!((tracker.find_ts(4, RoundUp), tracker.find_ts(4, RoundDown)), (Ok(None), Ok(Some(Second(30)))));
    // Its sequence is below that of the pair that is lost.
    assert_eq!(tracker.insert(pair(3, 45)), Ok(Inserted::Recorded));
    assert_eq!(kept(&tracker), [(1, 10), (3, 30), (3, 45)]);
}
