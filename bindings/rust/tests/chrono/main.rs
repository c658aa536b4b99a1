//! The lines that the docs of `Second` show for chrono, and dates, against the real chrono. cargo does not build this: the crate does not depend on chrono.
#![no_main]
#[path = "../library/chance.rs"]
mod chance;
#[path = "../library/run.rs"]
mod run;

use chance::Chance;
use chrono::{DateTime, FixedOffset, SecondsFormat, Utc};
use skutlaneb::{FindOption, NoSystemTime, Second, Seq, SequenceTracker, TrackedSeq};
use std::time::SystemTime;

/// The second of a date, and a second's date, by chrono's own calls, as in slatedb.
fn directly(date: DateTime<Utc>) -> (Second, Option<DateTime<Utc>>) {
    let second = Second(date.timestamp());
    let date = DateTime::from_timestamp(second.0, 0);
    (second, date)
}

/// The same by way of std's times.
fn by_system_time(date: DateTime<Utc>) -> Result<(Second, DateTime<Utc>), NoSystemTime> {
    let second = Second::from(SystemTime::from(date));
    let date = DateTime::<Utc>::from(SystemTime::try_from(second)?);
    Ok((second, date))
}

fn date(second: i64, nanos: u32) -> DateTime<Utc> {
    DateTime::from_timestamp(second, nanos).expect("chrono has the date")
}

/// Both ways give this second, and the date at which it begins.
fn both(date_text: &str, second: i64) {
    let given: DateTime<Utc> = date_text.parse().expect("a date");
    let begun = date(second, 0);
    assert_eq!(directly(given), (Second(second), Some(begun)), "{date_text}");
    assert_eq!(by_system_time(given), Ok((Second(second), begun)), "{date_text}");
}

fn years() {
    both("0001-01-01T00:00:00Z", -62_135_596_800);
    both("0001-01-01T00:00:00.999999999Z", -62_135_596_800);
    both("9999-12-31T23:59:59Z", 253_402_300_799);
    both("9999-12-31T23:59:59.999999999Z", 253_402_300_799);
    both("1970-01-01T00:00:00Z", 0);
    both("2024-02-29T12:34:56.7Z", 1_709_210_096);
}

fn before_1970() {
    both("1969-12-31T23:59:59Z", -1);
    both("1969-12-31T23:59:59.999999999Z", -1);
    both("1969-12-31T23:59:59.000000001Z", -1);
    both("1969-12-31T23:59:58.5Z", -2);
    both("0001-01-01T00:00:01.5Z", -62_135_596_799);
}

fn leap_second() {
    let leap: DateTime<Utc> = "2016-12-31T23:59:60.5Z".parse().expect("a date");
    assert_eq!(directly(leap).0, Second(1_483_228_799));
    assert_eq!(by_system_time(leap).map(|given| given.0), Ok(Second(1_483_228_800)));
}

fn no_date() {
    assert_eq!(DateTime::from_timestamp(Second(i64::MAX).0, 0), None);
    let time = SystemTime::try_from(Second(1 << 50)).expect("a time");
    let words = std::panic::take_hook();
    std::panic::set_hook(Box::new(|_| ()));
    let panicked = std::panic::catch_unwind(|| DateTime::<Utc>::from(time)).is_err();
    std::panic::set_hook(words);
    assert!(panicked);
}

fn in_a_table() {
    let mut tracker = SequenceTracker::new();
    tracker.insert(TrackedSeq { seq: Seq(100), ts: Second(date(-1, 500_000_000).timestamp()) }).unwrap();
    let found = tracker.find_ts(100, FindOption::RoundDown).unwrap().unwrap();
    assert_eq!(DateTime::from_timestamp(found.0, 0), Some(date(-1, 0)));
    assert_eq!(tracker.find_seq(SystemTime::from(date(-1, 1)), FindOption::RoundDown), Ok(Some(Seq(100))));
}

const FIRST: i64 = -62_135_596_800;
const LAST: i64 = 253_402_300_799;
const DAY: i64 = 86_400;

/// A second of chance on every eleventh day of the years, and the last one.
fn seconds(chance: &mut Chance) -> Vec<i64> {
    (FIRST..LAST).step_by(11 * DAY as usize).map(|start| start + chance.below(DAY as u64) as i64).chain([LAST]).collect()
}

fn written() {
    for second in seconds(&mut Chance(1970)) {
        let theirs = date(second, 0).to_rfc3339_opts(SecondsFormat::Secs, true);
        assert_eq!(Second(second).to_rfc3339().expect("a date").as_str(), theirs, "{second}");
        assert_eq!(Second::from_rfc3339(&theirs), Ok(Second(second)), "{theirs}");
    }
}

/// A date of chance as chrono writes it, with an offset and a fraction of nine, six, three or no digits. It is not of the first or the last day, at which the
/// offset may lead outside the years.
fn their_text(chance: &mut Chance) -> (i64, String) {
    let second = FIRST + DAY + chance.below((LAST - FIRST - 2 * DAY) as u64) as i64;
    let nanos = chance.below(1000) * [1, 1000, 1_000_000, 0][chance.below(4) as usize];
    let offset = FixedOffset::east_opt(60 * (chance.below(2 * 1440 - 1) as i32 - 1439)).expect("an offset of less than a day");
    (second, date(second, nanos as u32).with_timezone(&offset).to_rfc3339())
}

fn read() {
    let mut chance = Chance(3339);
    for _ in 0..200_000 {
        let (second, text) = their_text(&mut chance);
        assert_eq!(Second::from_rfc3339(&text), Ok(Second(second)), "{text}");
    }
}

/// The number that refuses what chrono reads: it takes a space for `T` and any number of digits, year 0000, second 60 (which
/// it gives as 10^9 nanoseconds or more), and dates outside the years.
fn only_theirs(text: &str, theirs: DateTime<FixedOffset>) -> u32 {
    let digits = text[20..].bytes().take_while(u8::is_ascii_digit).count();
    if text[10..].starts_with(' ') || text[19..].starts_with('.') && digits > 9 {
        25
    } else if text.starts_with("0000") || theirs.timestamp_subsec_nanos() >= 1_000_000_000 {
        26
    } else {
        assert!(!(FIRST..=LAST).contains(&theirs.timestamp()), "{text}");
        27
    }
}

/// Gives the number that refuses a text, or 0 where it is read.
fn as_theirs(text: &str) -> u32 {
    match (Second::from_rfc3339(text), DateTime::parse_from_rfc3339(text)) {
        (Ok(second), theirs) => assert_eq!(theirs.map(|date| date.timestamp()), Ok(second.0), "{text}"),
        (Err(error), Ok(theirs)) => assert_eq!(error.number(), only_theirs(text, theirs), "{text}"),
        (Err(error), Err(_)) => assert!([25, 26].contains(&error.number()), "{text}"),
    }
    Second::from_rfc3339(text).map_or_else(|error| error.number(), |_| 0)
}

fn damaged() {
    let (mut chance, mut met) = (Chance(60), [0; 28]);
    for _ in 0..200_000 {
        let mut text = their_text(&mut chance).1.into_bytes();
        if chance.once_in(4) {
            text[..10].copy_from_slice([b"0000-12-31", b"0001-01-01", b"9999-12-31", b"2023-02-29"][chance.below(4) as usize]);
        }
        while chance.once_in(2) {
            let (at, byte) = (chance.below(text.len() as u64) as usize, b"0123456789Tt:Zz+-. "[chance.below(19) as usize]);
            if chance.once_in(8) {
                text.insert(at, byte);
            } else {
                text[at] = byte;
            }
        }
        met[as_theirs(&String::from_utf8(text).expect("ASCII")) as usize] += 1;
    }
    assert!([0, 25, 26, 27].iter().all(|&number| met[number] > 1000), "{met:?}");
}

#[no_mangle]
pub extern "C" fn main(_argc: i32, _argv: *const *const u8) -> i32 {
    run::run(&[
        ("chrono: dates from year 0001 to 9999, with fractions", years),
        ("chrono: dates before 1970 are the second that has begun", before_1970),
        ("chrono: a leap second is the second before it, by std's times the one after it", leap_second),
        ("chrono: a second that is no date", no_date),
        ("chrono: a date goes to a table and comes back", in_a_table),
        ("chrono: dates are written as chrono writes them, and read from its texts", written),
        ("chrono: its texts with a fraction and an offset are read as the second that has begun", read),
        ("chrono: a damaged text is read as chrono reads it, or refused, where it reads more than the rules do, by the rules' number", damaged),
    ])
}
