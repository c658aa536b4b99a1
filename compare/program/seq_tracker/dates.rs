//! Dates: seconds written and texts read, beside chrono's calendar and what it writes and reads of RFC 3339.
//!
//! chrono takes more than the rules (docs/RULES.md), which have 25 for what only its grammar has: a space for the `T`, U+2212 for the `-` of an offset, a fraction of
//! more than nine digits. They have 26 for the year 0000 and for second 60, which chrono takes in any minute, for a leap second.
use super::chance::{Chance, FIRST_SECOND, LAST_SECOND};
use super::lent;
use super::ours::{self, Answer, OK};
use super::refusals::told;
use super::tally::Tally;
use chrono::{DateTime, Datelike, SecondsFormat};
use std::ops::RangeInclusive;

/// The years that are dated. Which one a second is in, chrono says.
const YEARS: RangeInclusive<i32> = 1..=9999;

/// The bytes of a date that is written.
const LEN: usize = 20;

const DAY: i64 = 86_400;

/// What the grammar uses, and what only chrono's has.
const GRAMMAR: &str = "0123456789-:TtZz+. \u{2212}";

/// What is due, with the kind that it is counted as, and who says so: chrono, or the rules alone where chrono has no answer or another one.
enum Due {
    Chrono(&'static str, Answer),
    Rules(&'static str, Answer),
}

impl Due {
    fn hold(self, tally: &mut Tally, input: impl Fn() -> String, ours: Answer) {
        match self {
            Due::Chrono(kind, answer) => tally.dated(kind, input, &answer, &ours),
            Due::Rules(kind, answer) => tally.ruled(kind, input, &answer, &ours),
        }
    }
}

fn given(a: u64) -> Answer {
    Answer { a, ..OK }
}

fn refused(number: u32) -> Answer {
    told(number, 0, 0)
}

/// A second written into `room` bytes. Answers chrono's text of it, where it has one of these years.
fn write(tally: &mut Tally, chance: &mut Chance, sec: i64, room: usize) -> Option<String> {
    let mut out = lent::bytes(chance, room);
    let before = out.all();
    let input = || format!("second {sec} into {room} bytes that held {before:?}");
    let at = DateTime::from_timestamp(sec, 0);
    let text = at.filter(|at| YEARS.contains(&at.year())).map(|at| at.to_rfc3339_opts(SecondsFormat::Secs, true));
    let due = match (at, &text) {
        (_, Some(text)) if room < text.len() => Due::Chrono("dates not written, 21", told(21, text.len() as u64, 0)),
        (_, Some(text)) => Due::Chrono("dates written", given(text.len() as u64)),
        (_, None) if room < LEN => Due::Rules("dates not written, 27 before 21", refused(27)),
        (None, None) => Due::Rules("dates not written, 27, of seconds that chrono cannot hold", refused(27)),
        (Some(_), None) => Due::Chrono("dates not written, 27", refused(27)),
    };
    due.hold(tally, input, ours::write_date(sec, &mut out));
    match &text {
        Some(text) if room >= LEN => tally.holds("dates written", input, &lent::holding(&before, text.as_bytes()), &out.all()),
        _ => tally.kept("dates not written", input, &before, &out.all()),
    }
    text
}

/// A second of these years written, with some bytes to spare, and read back from its text.
fn both_ways(tally: &mut Tally, chance: &mut Chance, sec: i64) {
    let room = LEN + chance.index(5);
    let text = write(tally, chance, sec, room).expect("a second of these years");
    tally.dated("dates read back", || text.clone(), &given(sec as u64), &ours::read_date(text.as_bytes()));
}

/// Whether a text is of chrono's grammar, whatever its numbers are: chrono takes it with every digit a 1, as the 11th of November 1111 at 11:11:11, an offset of 11:11, is a time.
fn of_chronos_grammar(text: &str) -> bool {
    DateTime::parse_from_rfc3339(&text.replace(|c: char| c.is_ascii_digit(), "1")).is_ok()
}

/// Whether a text of chrono's grammar has something that the rules' has not.
fn beyond_the_rules(text: &str) -> bool {
    let digits = |rest: &str| rest.bytes().take_while(u8::is_ascii_digit).count();
    text.contains([' ', '\u{2212}']) || text.split_once('.').is_some_and(|(_, rest)| digits(rest) > 9)
}

/// What is due of a text. chrono may find a number out of range before it comes to what is not its grammar, so its refusals do not tell 25 from 26; the grammar is asked for first.
fn due(bytes: &[u8]) -> Due {
    // chrono takes a `str`
    let Ok(text) = std::str::from_utf8(bytes) else { return Due::Rules("texts refused, 25, not UTF-8", refused(25)) };
    if !of_chronos_grammar(text) {
        return Due::Chrono("texts refused, 25", refused(25));
    }
    if beyond_the_rules(text) {
        return Due::Rules("texts refused, 25, of chrono's grammar", refused(25));
    }
    match DateTime::parse_from_rfc3339(text) {
        Err(_) => Due::Chrono("texts refused, 26", refused(26)),
        Ok(_) if text.starts_with("0000") => Due::Rules("texts refused, 26, of year 0000", refused(26)),
        Ok(_) if &text[17..19] == "60" => Due::Rules("texts refused, 26, of second 60", refused(26)),
        Ok(at) if !YEARS.contains(&at.to_utc().year()) => Due::Chrono("texts refused, 27", refused(27)),
        Ok(at) => Due::Chrono(read_as(text), given(at.timestamp() as u64)),
    }
}

/// The kind of a text that is read: what of it is more than date and time.
fn read_as(text: &str) -> &'static str {
    match (text.contains('.'), text.ends_with(['Z', 'z'])) {
        (false, true) => "texts read",
        (true, true) => "texts read, with a fraction",
        (false, false) => "texts read, with an offset",
        (true, false) => "texts read, with a fraction and an offset",
    }
}

fn read(tally: &mut Tally, bytes: &[u8]) {
    let input = || format!("{:?}, bytes {bytes:02x?}", String::from_utf8_lossy(bytes));
    due(bytes).hold(tally, input, ours::read_date(bytes));
}

/// Every day: its first second, its last, and one between. That one goes through every second of a day, as the step has no divisor in common with their number.
fn days(tally: &mut Tally, chance: &mut Chance) {
    const STEP: i64 = 53_393;
    for day in FIRST_SECOND / DAY..=LAST_SECOND / DAY {
        for of_day in [0, (day * STEP).rem_euclid(DAY), DAY - 1] {
            both_ways(tally, chance, day * DAY + of_day);
        }
    }
}

/// Every year with each month and the days about its end; every two digits in the place of each two; fractions of every length.
fn numbers(tally: &mut Tally) {
    for year in 0..=9999 {
        for month in 1..=12 {
            (28..=32).for_each(|day| read(tally, format!("{year:04}-{month:02}-{day:02}T00:00:00Z").as_bytes()));
        }
    }
    for x in 0..100 {
        for y in 0..100 {
            for year in ["1900", "2000", "2023", "2024"] {
                read(tally, format!("{year}-{x:02}-{y:02}T12:34:56Z").as_bytes());
            }
            for time in [format!("{x:02}:{y:02}:00"), format!("23:{x:02}:{y:02}")] {
                read(tally, format!("2024-02-29T{time}Z").as_bytes());
            }
            for time in ["0001-01-01T00:00:00", "1970-01-01T00:00:00", "9999-12-31T23:59:59"] {
                read(tally, format!("{time}+{x:02}:{y:02}").as_bytes());
                read(tally, format!("{time}-{x:02}:{y:02}").as_bytes());
            }
        }
    }
    for time in ["0001-01-01T00:00:00", "1969-12-31T23:59:59", "1970-01-01T00:00:00", "9999-12-31T23:59:59"] {
        for digits in 0..=300 {
            for digit in ["0", "5", "9"] {
                read(tally, format!("{time}.{}Z", digit.repeat(digits)).as_bytes());
            }
        }
    }
}

/// The bytes with others put in from a place on, and as many gone there as is said.
fn with(bytes: &[u8], at: usize, gone: usize, put: &[u8]) -> Vec<u8> {
    [&bytes[..at], put, &bytes[at + gone..]].concat()
}

/// The text cut at every byte, both parts; one byte gone, and every byte put in or in the place of another (so that some are there twice), and after the end.
fn one_off(tally: &mut Tally, text: &[u8]) {
    for at in 0..=text.len() {
        read(tally, &text[..at]);
        read(tally, &text[at..]);
        (0..=255).for_each(|x| read(tally, &with(text, at, 0, &[x])));
    }
    for at in 0..text.len() {
        read(tally, &with(text, at, 1, &[]));
        (0..=255).for_each(|x| read(tally, &with(text, at, 1, &[x])));
    }
}

pub fn exhaustive(tally: &mut Tally) {
    days(tally, &mut Chance::new(1));
    numbers(tally);
    for text in [
        "2024-02-29T23:59:59Z",
        "1969-12-31t23:59:59.999999999z",
        "0001-01-01T00:00:00.5+00:01",
        "9999-12-31T23:59:59.123456789-23:59",
        "0000-12-31T23:59:59-00:01",
        "1990-12-31T23:59:60-00:00",
        "2023-02-29T24:60:61.0123456789+24:60",
        "2000-01-01 00:00:00\u{2212}08:00",
    ] {
        one_off(tally, text.as_bytes());
    }
}

/// A second of the domain: any, or one near an end or near 0.
fn second(chance: &mut Chance) -> i64 {
    let (any, near) = (chance.below((LAST_SECOND - FIRST_SECOND) as u64 + 1) as i64, (chance.sized() >> 30) as i64);
    chance.of(&[FIRST_SECOND + any, FIRST_SECOND + any, FIRST_SECOND + near, LAST_SECOND - near, near, -near])
}

/// A second outside of it, often just so, and often such that chrono has it.
fn outside(chance: &mut Chance) -> i64 {
    let by = (chance.sized() >> chance.of(&[1, 20, 30])) as i64;
    chance.of(&[LAST_SECOND.saturating_add(1).saturating_add(by), (FIRST_SECOND - 1).saturating_sub(by)])
}

/// A number of two digits: from `low` to `high` most of the time, else at these limits, one beyond, or any.
fn two(chance: &mut Chance, low: u64, high: u64) -> String {
    let (any, fit) = (chance.below(100), low + chance.below(high - low + 1));
    let limit = chance.of(&[low.saturating_sub(1), low, high, high + 1]);
    let number = match chance.below(16) {
        0 => any,
        1 => limit,
        _ => fit,
    };
    format!("{number:02}")
}

fn date(chance: &mut Chance) -> String {
    match chance.below(8) {
        0 => "0001-01-01".into(),
        1 => "9999-12-31".into(),
        2 => format!("{}-02-{}", chance.of(&["0000", "0004", "0100", "0400", "1900", "2000", "2023", "2024", "2100"]), two(chance, 28, 29)),
        _ => format!("{:04}-{}-{}", chance.below(10_000), two(chance, 1, 12), two(chance, 1, 31)),
    }
}

/// A fraction, or none: of nine digits at most, but for some.
fn fraction(chance: &mut Chance) -> String {
    let most = chance.of(&[9, 9, 9, 9, 9, 9, 9, 12]);
    let digits = 1 + chance.index(most);
    let any: String = (0..digits).map(|_| chance.of(&['0', '1', '4', '5', '9'])).collect();
    if chance.below(2) == 0 { String::new() } else { format!(".{any}") }
}

fn offset(chance: &mut Chance) -> String {
    let sign = chance.of(&["+", "-", "+", "-", "+", "-", "+", "\u{2212}"]);
    let numeric = format!("{sign}{}:{}", two(chance, 0, 23), two(chance, 0, 59));
    chance.of(&["Z", "z", "+00:00", "-00:00", &numeric, &numeric, &numeric, &numeric]).into()
}

/// A text of chrono's grammar, whose numbers mostly fit: mostly one of the rules' grammar.
fn made(chance: &mut Chance) -> String {
    let letter = chance.of(&["T", "t", "T", "t", "T", "t", "T", " "]);
    let time = [two(chance, 0, 23), two(chance, 0, 59), two(chance, 0, 59)].join(":");
    [date(chance), letter.into(), time, fraction(chance), offset(chance)].concat()
}

/// A character of the grammar, or any byte.
fn piece(chance: &mut Chance) -> Vec<u8> {
    let any = chance.index(GRAMMAR.chars().count());
    if chance.below(8) == 0 { chance.bytes(1) } else { GRAMMAR.chars().skip(any).take(1).collect::<String>().into() }
}

/// One to three kinds of damage.
fn damage(chance: &mut Chance, text: &mut Vec<u8>) {
    for _ in 0..=chance.below(3) {
        let at = chance.index(text.len() + 1);
        let one = 1.min(text.len() - at); // none at the end
        *text = match chance.below(5) {
            0 => text[..at].to_vec(),
            1 => with(text, at, one, &[]),
            2 => with(text, at, 0, &text[at..at + one]),
            3 => with(text, at, 0, &piece(chance)),
            _ => with(text, at, one, &piece(chance)),
        };
    }
}

/// Random bytes, or a row of random pieces of the grammar.
fn noise(chance: &mut Chance) -> Vec<u8> {
    let n = chance.index(40);
    if chance.below(2) == 0 { chance.bytes(n) } else { (0..n).flat_map(|_| piece(chance)).collect() }
}

/// Two texts, as bytes, stand in the order of their seconds.
fn order(tally: &mut Tally, chance: &mut Chance) {
    let one = second(chance);
    let apart = (chance.sized() >> 26) as i64;
    let any = second(chance);
    let other = chance.of(&[one, (one + apart).min(LAST_SECOND), (one - apart).max(FIRST_SECOND), any]);
    let [a, b] = [one, other].map(|sec| {
        let mut out = lent::bytes(chance, LEN);
        ours::write_date(sec, &mut out);
        out.places().to_vec()
    });
    tally.ruled("orders of two dates", || format!("seconds {one} and {other}, texts {a:?} and {b:?}"), &one.cmp(&other), &a.cmp(&b));
}

pub fn random(tally: &mut Tally, chance: &mut Chance) {
    for _ in 0..2000 {
        let (within, beyond) = (second(chance), outside(chance));
        both_ways(tally, chance, within);
        let (short, any) = (chance.index(LEN), chance.index(2 * LEN));
        write(tally, chance, within, short);
        write(tally, chance, beyond, any);
        order(tally, chance);
        let mut text = made(chance).into_bytes();
        read(tally, &text);
        damage(chance, &mut text);
        read(tally, &text);
        read(tally, &noise(chance));
    }
}
