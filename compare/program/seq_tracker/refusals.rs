//! Refusals that the Rust does not have: what the rules (docs/RULES.md) say, and that every lent place stays as it was.
use super::chance::{Chance, FIRST_SECOND, LAST_SECOND};
use super::lent;
use super::lists;
use super::offers::{self, outside};
use super::ours::{self, Answer, Table, TableAnswer, WhyAnswer, NO_OFFERS, NO_STATE, OK};
use super::questions::{lend, sheet_of, Key, Sheet};
use super::readers::unfit;
use super::restores::due;
use super::tally::Tally;
use super::theirs;

pub fn told(number: u32, a: u64, b: u64) -> Answer {
    Answer { number, a, b, ..OK }
}

pub fn no_table(answer: Answer) -> TableAnswer {
    TableAnswer { answer, tally: NO_OFFERS, state: NO_STATE }
}

/// Refusals 14, 11, 12 and 13 of a table, as the rules have them.
fn judged(t: &Table) -> Option<Answer> {
    let s = t.state;
    let room = (s.capacity as usize).max(1);
    let domain = FIRST_SECOND..=LAST_SECOND;
    let fits = s.capacity <= 8192
        && s.interval_secs <= i64::MAX as u64
        && t.seqs.len() >= room
        && t.secs.len() >= room
        && s.count <= room
        && s.has_last == (s.count != 0) as u32
        && theirs::sum(s.totals) <= u64::MAX.into()
        && (s.has_last == 0 || domain.contains(&s.last) && s.last >= t.secs.places()[s.count - 1]);
    if !fits {
        return Some(told(14, 0, 0));
    }
    unfit(&t.seqs.places()[..s.count], &t.secs.places()[..s.count]).map(|(number, index)| told(number, index, 0))
}

/// A table with something wrong, most of the time.
fn spoiled(chance: &mut Chance) -> Table {
    let n = 1 + chance.index(8);
    let (mut seqs, mut secs) = (chance.seqs(n), chance.secs(n));
    let t = theirs::table(n as u32 + chance.below(2) as u32, 60, &seqs, &secs);
    let mut state = theirs::state(&t);
    let at = chance.index(n);
    let counted = chance.of_every_sum();
    state.totals = chance.totals(counted);
    match chance.below(14) {
        0 => state.capacity = chance.of(&[8193, u32::MAX, 9000]),
        1 => state.interval_secs = chance.of(&[1 << 63, u64::MAX]),
        2 => state.count = chance.of(&[0, n + 2, usize::MAX]),
        3 => state.has_last = 0,
        4 => state.last = chance.of(&[FIRST_SECOND - 1, LAST_SECOND + 1, i64::MIN, i64::MAX]),
        5 => state.last = secs[n - 1] - 1,
        6 => seqs[at] = seqs[at].wrapping_sub(1 + chance.below(50)),
        7 => secs[at] -= 1 + chance.below(50) as i64,
        8 => secs[0] = FIRST_SECOND - 1 - chance.below(9) as i64,
        9 => state.capacity += 3,
        10 => state.has_last = chance.of(&[2, 3, u32::MAX]),
        11 => seqs[at] = chance.word(),
        12 => {
            state.totals = chance.bad_totals();
            seqs[at] = chance.of(&[seqs[at], 0]);
        }
        _ => secs[at] = chance.word() as i64,
    }
    let spare = state.capacity.min(10) as usize - n.min(state.capacity.min(10) as usize);
    let less = chance.index(2);
    let short = if chance.below(8) == 0 { spare.saturating_sub(1) } else { spare };
    Table { state, seqs: lent::seqs(chance, &seqs, spare + less), secs: lent::secs(chance, &secs, short), due: state.totals }
}

fn described(t: &Table) -> String {
    format!("{:?}, sequences {:?}, seconds {:?}", t.state, t.seqs.places(), t.secs.places())
}

/// Every call on a table that the rules refuse, but those of many questions and of reasons.
fn bad_table(tally: &mut Tally, chance: &mut Chance) {
    let mut t = spoiled(chance);
    let Some(rule) = judged(&t) else {
        tally.ruled("tables found good", || format!("{:?}", t.state), &told(0, 0, 0), &t.check());
        return;
    };
    let kind = ["tables refused, 11", "tables refused, 12", "tables refused, 13", "tables refused, 14"][rule.number as usize - 11];
    let before = (t.seqs.all(), t.secs.all());
    let described = described(&t);
    let input = || described.clone();
    let mut out = lent::bytes(chance, 40);
    let clean = out.all();
    let good = theirs::table(3, 60, &[1, 2], &[5, 6]);
    let counted = chance.of_every_sum();
    let totals = chance.totals(counted);
    let mut own = offers::table_of(chance, &good).with_totals(totals);
    let own_before = (own.seqs.all(), own.secs.all());
    // 31 comes after these
    let offers = if theirs::full(t.state.totals) && rule.number < 14 { "tables refused, 11 to 13 before 31" } else { kind };
    let which = |table: u64| if rule.number == 14 { told(14, table, 0) } else { told(rule.number, rule.a, table) };
    tally.ruled(kind, input, &rule, &t.check());
    tally.ruled(offers, input, &no_table(rule), &t.offer(chance.word(), chance.word() as i64));
    tally.ruled(offers, input, &no_table(rule), &t.offer_pairs(&[1, 2, 3], &[1, 2, 3]));
    tally.ruled("lists of offers refused, 18", input, &no_table(told(18, 0, 0)), &t.offer_pairs(&[1, 2, 3], &[1, 2]));
    tally.ruled(offers, input, &no_table(which(0)), &t.extend_from(&own));
    tally.ruled(kind, input, &no_table(which(1)), &own.extend_from(&t));
    tally.ruled(kind, input, &rule, &t.find_ts(chance.word(), 0));
    tally.ruled(kind, input, &rule, &t.find_seq(chance.word() as i64, 1));
    tally.ruled(kind, input, &rule, &t.save(false, &mut out));
    tally.ruled(kind, input, &rule, &t.save(true, &mut out));
    tally.kept(kind, input, &(before, clean, own_before), &((t.seqs.all(), t.secs.all()), out.all(), (own.seqs.all(), own.secs.all())));
}

/// 15; and 16, alone and in lists, after each of which the table goes on.
fn settings_and_seconds(tally: &mut Tally, chance: &mut Chance) {
    let (capacity, interval) = (chance.of(&[8193, u32::MAX, 5]), chance.bad_interval());
    let input = || format!("capacity {capacity}, interval {interval}");
    tally.ruled("settings refused, 15", input, &no_table(told(15, 0, 0)), &ours::with_config(capacity, interval));
    let mut t = theirs::table(4, 60, &[1, 2], &[5, 6]);
    let mut ours = offers::table_of(chance, &t);
    let sec = outside(chance);
    offers::offer(tally, &mut t, &mut ours, 9, sec);
    for skipped in [5, 6, 7] {
        lists::list(tally, &mut t, &mut ours, &[9, 9], &[skipped, sec]);
    }
}

/// 18.
fn arrays(tally: &mut Tally, chance: &mut Chance) {
    let (n, m) = (chance.index(9), 9 + chance.index(9));
    let (seqs, secs) = (chance.seqs(n), chance.secs(m));
    let mut out = lent::bytes(chance, 200);
    let before = out.all();
    let input = || format!("sequences {seqs:?}, seconds {secs:?}");
    tally.ruled("encoders refused, 18", input, &told(18, 0, 0), &ours::encoded_len(&seqs, &secs));
    for strict in [false, true] {
        tally.ruled("encoders refused, 18", input, &told(18, 0, 0), &ours::encode(strict, &seqs, &secs, &mut out));
    }
    tally.kept("encoders refused, 18", input, &before, &out.all());
}

/// Bytes of which a restore makes a table, and those that it refuses with 1, 2, .. 13, each at the number's place.
fn by_number() -> Vec<Vec<u8>> {
    let image = |seqs: &[u64], secs: &[i64]| theirs::table(8192, 0, seqs, secs).to_bytes();
    let good = image(&[100, 164, 170], &[0, 60, 90]);
    let with = |at: usize, byte: u8| [&good[..at], &[byte], &good[at + 1..]].concat();
    // nine values whose codes are the byte 01: the last has one bit
    let prefix_cut = [&[1, 9, 0, 0, 0, 0, 0, 0, 9][..], &[0; 8], &[1]].concat();
    let cut = |n: usize| good[..n].to_vec();
    let read = vec![good.clone(), vec![], with(0, 2), cut(4), cut(8), cut(16), cut(17), prefix_cut, cut(18), with(1, 4)];
    let many = vec![1, 1, 32, 0, 0, 0, 0, 32, 1];
    let unfit = [image(&[5, 4], &[0, 0]), image(&[4, 5], &[1, 0]), image(&[1], &[LAST_SECOND + 1])];
    let all: Vec<Vec<u8>> = read.into_iter().chain([many]).chain(unfit).collect();
    let number = |bytes: &Vec<u8>| due(bytes, &theirs::read(bytes)).map_or_else(|refusal| refusal.number, |_| 0);
    assert_eq!(all.iter().map(number).collect::<Vec<u32>>(), (0..=13).collect::<Vec<u32>>());
    all
}

/// 15 of a restore, before 14 and before all that refuses its bytes; then 14, before the latter.
fn restores(tally: &mut Tally, chance: &mut Chance, all: &[Vec<u8>]) {
    for (n, m) in [(8192, 8192), (8191, 8192), (8192, 8191), (0, 0)] {
        let (mut seqs, mut secs) = (lent::seqs(chance, &[], n), lent::secs(chance, &[], m));
        let before = (seqs.all(), secs.all());
        for (number, bytes) in all.iter().enumerate() {
            let (interval, bad) = (chance.interval(), chance.bad_interval());
            let input = || format!("interval {bad}, else {interval}, {n} sequences and {m} seconds lent, bytes {bytes:02x?}");
            let (short, refused) = (n.min(m) < 8192, number > 0);
            let kind = match (short, refused) {
                (false, false) => "restores refused, 15",
                (true, false) => "restores refused, 15 before 14",
                (false, true) => "restores refused, 15 before 1 to 13",
                (true, true) => "restores refused, 15 before 14 and 1 to 13",
            };
            tally.ruled(kind, input, &no_table(told(15, 0, 0)), &Table::restore_with_interval(bytes, &mut seqs, &mut secs, bad));
            tally.kept(kind, input, &before, &(seqs.all(), secs.all()));
            if !short {
                continue;
            }
            let kind = if refused { "restores refused, 14 before 1 to 13" } else { "restores refused, 14" };
            tally.ruled(kind, input, &no_table(told(14, 0, 0)), &Table::restore_with_interval(bytes, &mut seqs, &mut secs, interval));
            tally.ruled(kind, input, &no_table(told(14, 0, 0)), &Table::restore(bytes, &mut seqs, &mut secs));
            tally.kept(kind, input, &before, &(seqs.all(), secs.all()));
        }
    }
}

/// 19.
fn too_many(tally: &mut Tally, chance: &mut Chance) {
    let (seqs, secs) = (vec![7; 65_537], vec![7; 65_537]);
    let mut out = lent::bytes(chance, 20_000);
    let before = out.all();
    let input = || "65,537 values".into();
    tally.ruled("encoders refused, 19", input, &told(19, 0, 0), &ours::encoded_len(&seqs, &secs));
    for strict in [false, true] {
        tally.ruled("encoders refused, 19", input, &told(19, 0, 0), &ours::encode(strict, &seqs, &secs, &mut out));
    }
    tally.kept("encoders refused, 19", input, &before, &out.all());
    super::encoders::both(tally, chance, &seqs[1..], &secs[1..]);
}

/// A sheet that is refused, and comes back as it went in.
fn refused_sheet<K: Key>(tally: &mut Tally, chance: &mut Chance, kind: &'static str, t: &Table, used: usize, rule: Answer) {
    let before = Sheet { used, ..sheet_of::<K>(chance, &[]) };
    let round = chance.below(2) as u32;
    let input = || format!("{before:?}, round {round}, in {}", described(t));
    let (answer, after) = K::sixteen(t, before, round);
    tally.ruled(kind, input, &rule, &answer);
    tally.kept(kind, input, &before, &after);
}

/// A list of questions, answers and marks of these lengths that is refused, and changes nothing.
fn refused_list<K: Key>(tally: &mut Tally, chance: &mut Chance, kind: &'static str, t: &Table, lengths: [usize; 3], rule: Answer) {
    let [n, m, k] = lengths;
    let (keys, mut answers, mut found) = (lend::<K>(chance, &[], n), lend::<K::Partner>(chance, &[], m), lent::bytes(chance, k));
    let before = (keys.all(), answers.all(), found.all());
    let round = chance.below(2) as u32;
    let input = || format!("{:?} with {m} answers and {k} marks, round {round}, in {}", keys.places(), described(t));
    tally.ruled(kind, input, &rule, &K::each(t, &keys, &mut answers, &mut found, round));
    tally.kept(kind, input, &before, &(keys.all(), answers.all(), found.all()));
}

/// More questions than a sheet has places, and three lengths that are not one: 35 and 18 come before what refuses the table, which comes then.
fn many_questions<K: Key>(tally: &mut Tally, chance: &mut Chance, t: &Table) {
    let rule = judged(t);
    let above = chance.of(&[17, 18, 32, 1 << 32, 1 << 32 | 3, usize::MAX]);
    let n = chance.index(20);
    let m = chance.of(&[n + 1, n.saturating_sub(1), 0, 2 * n + 1]);
    // these may be one after all, and are then not asked
    let lengths = chance.of(&[[n, m, n], [n, n, m], [m, n, n], [n, m, m + 1], [n, m, m]]);
    let one = lengths[0] == lengths[1] && lengths[0] == lengths[2];
    let (sheet, list) = match rule {
        Some(_) => ("sheets refused, 35 before 11 to 14", "lists of questions refused, 18 before 11 to 14"),
        None => ("sheets refused, 35", "lists of questions refused, 18"),
    };
    refused_sheet::<K>(tally, chance, sheet, t, above, told(35, 0, 0));
    if !one {
        refused_list::<K>(tally, chance, list, t, lengths, told(18, 0, 0));
    }
    let Some(rule) = rule else { return };
    let sheet = ["sheets refused, 11", "sheets refused, 12", "sheets refused, 13", "sheets refused, 14"];
    let list = ["lists of questions refused, 11", "lists of questions refused, 12", "lists of questions refused, 13", "lists of questions refused, 14"];
    let used = chance.index(17);
    refused_sheet::<K>(tally, chance, sheet[rule.number as usize - 11], t, used, rule);
    refused_list::<K>(tally, chance, list[rule.number as usize - 11], t, [n; 3], rule);
}

pub fn questions(tally: &mut Tally, chance: &mut Chance) {
    for _ in 0..1000 {
        let t = spoiled(chance);
        let before = (t.seqs.all(), t.secs.all());
        many_questions::<u64>(tally, chance, &t);
        many_questions::<i64>(tally, chance, &t);
        tally.holds("refused sheets and lists of questions, the table", || described(&t), &before, &(t.seqs.all(), t.secs.all()));
    }
}

/// Why a lookup answers as it does, of a table that the rules refuse: the refusal, no reason and no position.
pub fn reasons(tally: &mut Tally, chance: &mut Chance) {
    for _ in 0..1000 {
        let t = spoiled(chance);
        let Some(rule) = judged(&t) else { continue };
        let kind = ["reasons refused, 11", "reasons refused, 12", "reasons refused, 13", "reasons refused, 14"][rule.number as usize - 11];
        let due = WhyAnswer { answer: rule, reason: 0, has_below: 0, has_above: 0, position: 0, below: 0, above: 0 };
        let before = (t.seqs.all(), t.secs.all());
        let (key, round) = (chance.word(), chance.of(&[0, 1, 2, u32::MAX]));
        let near = chance.of(t.seqs.places());
        let input = || format!("{key} and {near}, round {round}, in {}", described(&t));
        for seq in [key, near] {
            tally.ruled(kind, input, &due, &t.why_ts(seq, round));
            tally.ruled(kind, input, &due, &t.why_seq(seq as i64, round));
        }
        tally.kept(kind, input, &before, &(t.seqs.all(), t.secs.all()));
    }
}

pub fn random(tally: &mut Tally, chance: &mut Chance) {
    for _ in 0..2000 {
        bad_table(tally, chance);
    }
    for _ in 0..50 {
        settings_and_seconds(tally, chance);
        arrays(tally, chance);
    }
    let all = by_number();
    for _ in 0..5 {
        restores(tally, chance, &all);
    }
    too_many(tally, chance);
}
