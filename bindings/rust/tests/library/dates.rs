//! Seconds as dates: what is written, what is read, and what is refused, beside a plain reader of the rules.
use crate::chance::Chance;
use crate::run::Case;
use crate::tables::table;
use skutlaneb::sys::{self, Answer};
use skutlaneb::{Error, FindOption, Rfc3339, Second, Seq};

pub const CASES: &[Case] = &[
    ("the rules' own texts are read as they say", texts),
    ("the rules' own seconds are written as they say, and read back", written),
    ("a second outside the years 0001 to 9999 has no date: 27, in any room", no_date),
    ("a date needs 20 bytes: 21, and neither refusal writes", room),
    ("a date is written to 20 bytes and to none after them", no_byte_past),
    ("every offset of two digits and two is applied, or refused by 26 or 27", offsets),
    ("a fraction of one to nine digits is left out, on both sides of 1970", fractions),
    ("every month and day, hour, minute and second of two digits is a time, or refused by 26", fields),
    ("25 comes before 26, and 26 before 27", order),
    ("a text that is cut, or has a byte more, less or another, is read by the rules", damaged),
    ("texts of chance are read by the rules, and every number is met", by_chance),
    ("the ends of each month of each year are written and read", each_month),
    ("the order of dates is the order of seconds, and that of their texts", ordered),
    ("a date prints as its text, and is read from what it prints", prints),
    ("a date with an offset is read as that of UTC, and looked up as its second", looked_up),
];

const FIRST: i64 = -62_135_596_800;
const LAST: i64 = 253_402_300_799;

/// What the crate says of a text: its second, or the refusal's number.
fn read(text: impl AsRef<[u8]>) -> Result<i64, u32> {
    Second::from_rfc3339(text).map(|second| second.0).map_err(|error| error.number())
}

fn shown(text: &[u8]) -> String {
    text.escape_ascii().to_string()
}

/// The days of a month by the Gregorian rule.
fn days_of(year: i64, month: i64) -> i64 {
    let leap = year % 4 == 0 && year % 100 != 0 || year % 400 == 0;
    match month {
        2 => 28 + i64::from(leap),
        4 | 6 | 9 | 11 => 30,
        _ => 31,
    }
}

/// The days from the first of year 0001 to a date.
fn days_before(year: i64, month: i64, day: i64) -> i64 {
    let whole = year - 1;
    365 * whole + whole / 4 - whole / 100 + whole / 400 + (1..month).map(|month| days_of(year, month)).sum::<i64>() + day - 1
}

/// A date-time as it stands in a text, without its fraction.
struct Parts {
    date: [i64; 3],
    time: [i64; 3],
    offset: [i64; 2],
    behind: bool,
}

/// Takes a number of so many digits from the front.
fn number(text: &mut &[u8], digits: usize) -> Option<i64> {
    let (front, rest) = (text.get(..digits)?, &text[digits..]);
    *text = rest;
    front.iter().try_fold(0, |number, byte| byte.is_ascii_digit().then(|| 10 * number + i64::from(byte - b'0')))
}

/// Takes one of these bytes from the front.
fn one_of(text: &mut &[u8], bytes: &[u8]) -> Option<u8> {
    let (&first, rest) = text.split_first()?;
    *text = rest;
    bytes.contains(&first).then_some(first)
}

/// Three numbers with a byte between them, the first of so many digits.
fn three(text: &mut &[u8], digits: usize, between: u8) -> Option<[i64; 3]> {
    let first = number(text, digits)?;
    one_of(text, &[between])?;
    let second = number(text, 2)?;
    one_of(text, &[between])?;
    Some([first, second, number(text, 2)?])
}

/// The parts of a text, or none where it is not of the grammar.
fn parts(mut text: &[u8]) -> Option<Parts> {
    let date = three(&mut text, 4, b'-')?;
    one_of(&mut text, b"Tt")?;
    let time = three(&mut text, 2, b':')?;
    if let Some(fraction) = text.strip_prefix(b".") {
        let digits = fraction.iter().take_while(|byte| byte.is_ascii_digit()).count();
        text = (1..=9).contains(&digits).then(|| &fraction[digits..])?;
    }
    let sign = one_of(&mut text, b"Zz+-")?;
    let mut offset = [0, 0];
    if sign == b'+' || sign == b'-' {
        offset[0] = number(&mut text, 2)?;
        one_of(&mut text, b":")?;
        offset[1] = number(&mut text, 2)?;
    }
    text.is_empty().then_some(Parts { date, time, offset, behind: sign == b'-' })
}

fn there_is(parts: &Parts) -> bool {
    let ([year, month, day], [hour, minute, second], [hours, minutes]) = (parts.date, parts.time, parts.offset);
    let a_day = year > 0 && (1..=12).contains(&month) && (1..=days_of(year, month)).contains(&day);
    a_day && hour < 24 && minute < 60 && second < 60 && hours < 24 && minutes < 60
}

/// What the rules say of a text.
fn due(text: &[u8]) -> Result<i64, u32> {
    let parts = parts(text).ok_or(25u32)?;
    if !there_is(&parts) {
        return Err(26);
    }
    let ([year, month, day], [hour, minute, second], [hours, minutes]) = (parts.date, parts.time, parts.offset);
    let ahead = 60 * (60 * hours + minutes) * if parts.behind { -1 } else { 1 };
    let second = FIRST + 86_400 * days_before(year, month, day) + 3600 * hour + 60 * minute + second - ahead;
    (FIRST..=LAST).contains(&second).then_some(second).ok_or(27)
}

fn texts() {
    let said = [
        ("1970-01-01T00:00:00Z", Ok(0)),
        ("0001-01-01T00:00:00Z", Ok(FIRST)),
        ("9999-12-31T23:59:59Z", Ok(LAST)),
        ("2000-02-29T00:00:00Z", Ok(951_782_400)),
        ("1900-02-29T00:00:00Z", Err(26)),
        ("2100-02-29T00:00:00Z", Err(26)),
        ("2024-02-29T00:00:00Z", Ok(1_709_164_800)),
        ("1969-12-31T23:59:59.999999999Z", Ok(-1)),
        ("0001-01-01T00:00:00+00:01", Err(27)),
        ("9999-12-31T23:59:59-00:01", Err(27)),
        ("0000-12-31T23:59:59-00:01", Err(26)),
        ("1990-12-31T23:59:60Z", Err(26)),
        ("1985-04-12t23:20:50.52z", Ok(482_196_050)),
        ("1985-04-12T23:20:50.52z", Ok(482_196_050)),
        ("1985-04-12t23:20:50.52Z", Ok(482_196_050)),
        ("1996-12-19T16:39:57-08:00", Ok(851_042_397)),
        ("1937-01-01T12:00:27.87+00:20", Ok(-1_041_337_173)),
        ("1970-01-01T00:00:00-00:00", Ok(0)),
        ("1970-00-01T00:00:00Z", Err(26)),
        ("1970-13-01T00:00:00Z", Err(26)),
        ("1970-01-00T00:00:00Z", Err(26)),
        ("1970-04-31T00:00:00Z", Err(26)),
        ("1970-01-01T24:00:00Z", Err(26)),
        ("1970-01-01T00:60:00Z", Err(26)),
        ("1970-01-01T00:00:00+24:00", Err(26)),
        ("1970-01-01T00:00:00+00:60", Err(26)),
        ("", Err(25)),
        ("1970-01-01 00:00:00Z", Err(25)),
        ("1970-01-01T00:00:00", Err(25)),
        ("1970-01-01T00:00:00Zz", Err(25)),
        ("1970-01-01T00:00:00.Z", Err(25)),
        ("1970-01-01T00:00:00.0123456789Z", Err(25)),
        ("1970-01-01T00:00:00\u{2212}01:00", Err(25)), // a minus sign that is not the hyphen
        ("1970-01-01T00:00:00+0100", Err(25)),
        ("1970-01-01T00:00:00+01", Err(25)),
        ("\u{FF11}970-01-01T00:00:00Z", Err(25)), // a digit that is not of ASCII
    ];
    for (text, second) in said {
        assert_eq!((read(text), due(text.as_bytes())), (second, second), "{text}");
    }
}

/// The bytes that the crate writes for a second are these, and read back they are the second.
fn both_ways(second: i64, text: &str) {
    let date = Second(second).to_rfc3339().unwrap();
    assert_eq!((date.as_str(), date.second(), read(text)), (text, Second(second), Ok(second)));
}

fn written() {
    let dates = [
        (0, "1970-01-01T00:00:00Z"),
        (-1, "1969-12-31T23:59:59Z"),
        (FIRST, "0001-01-01T00:00:00Z"),
        (LAST, "9999-12-31T23:59:59Z"),
        (951_782_400, "2000-02-29T00:00:00Z"),
        (951_868_800, "2000-03-01T00:00:00Z"),
        (-2_203_891_201, "1900-02-28T23:59:59Z"),
        (-2_203_891_200, "1900-03-01T00:00:00Z"),
        (4_107_542_400, "2100-03-01T00:00:00Z"),
        (1_709_210_096, "2024-02-29T12:34:56Z"),
    ];
    for (second, text) in dates {
        both_ways(second, text);
    }
}

/// What the call answers for a second in so much room, and what then stands in 32 bytes of `.`
fn raw(second: i64, room: usize) -> (Answer, [u8; 32]) {
    let mut out = [b'.'; 32];
    let answer = unsafe { sys::skut_write_date(second, out.as_mut_ptr(), room) };
    (answer, out)
}

fn no_date() {
    let refused = Answer { number: 27, ..Answer::default() };
    for second in [FIRST - 1, LAST + 1, i64::MIN, i64::MAX] {
        assert_eq!(Second(second).to_rfc3339(), Err(Error::DateOutside));
        assert!((0..=32).all(|room| raw(second, room) == (refused, [b'.'; 32])));
    }
}

fn room() {
    let refused = Answer { number: 21, a: 20, ..Answer::default() };
    for second in [FIRST, -1, 0, LAST] {
        assert!((0..20).all(|room| raw(second, room) == (refused, [b'.'; 32])));
    }
}

fn no_byte_past() {
    let done = Answer { a: 20, ..Answer::default() };
    for second in [FIRST, -1, 0, LAST] {
        let mut out = [b'.'; 32];
        out[..20].copy_from_slice(Second(second).to_rfc3339().unwrap().as_str().as_bytes());
        assert!((20..=32).all(|room| raw(second, room) == (done, out)));
    }
}

fn offsets() {
    for (local, second) in [("1970-01-01T00:00:00", 0), ("0001-01-01T00:00:00", FIRST), ("9999-12-31T23:59:59.9", LAST)] {
        for (hours, minutes) in (0..100).flat_map(|hours| (0..100).map(move |minutes| (hours, minutes))) {
            for (sign, towards) in [('+', -1), ('-', 1)] {
                let text = format!("{local}{sign}{hours:02}:{minutes:02}");
                let second = second + towards * 60 * (60 * hours + minutes);
                let expected = match (hours < 24 && minutes < 60, (FIRST..=LAST).contains(&second)) {
                    (false, _) => Err(26),
                    (true, false) => Err(27),
                    (true, true) => Ok(second),
                };
                assert_eq!(read(&text), expected, "{text}");
            }
        }
    }
}

fn fractions() {
    for (local, second) in [("1969-12-31T23:59:59", -1), ("1970-01-01T00:00:00", 0), ("0001-01-01T00:00:00", FIRST), ("9999-12-31T23:59:59", LAST)] {
        for digits in ["000000000000", "999999999999", "500000000000", "123456789012"] {
            for length in 0..=12 {
                let expected = if (1..=9).contains(&length) { Ok(second) } else { Err(25) };
                for zone in ["Z", "z", "+00:00", "-00:00"] {
                    let text = format!("{local}.{}{zone}", &digits[..length]);
                    assert_eq!(read(&text), expected, "{text}");
                }
            }
        }
    }
}

fn fields() {
    for year in [0, 1, 4, 100, 400, 1900, 2000, 2023, 2024, 2100, 9999] {
        for (month, day) in (0..100).flat_map(|month| (0..100).map(move |day| (month, day))) {
            let text = format!("{year:04}-{month:02}-{day:02}T00:00:00Z");
            let there = year > 0 && (1..=12).contains(&month) && (1..=days_of(year, month)).contains(&day);
            assert_eq!(read(&text), if there { Ok(FIRST + 86_400 * days_before(year, month, day)) } else { Err(26) }, "{text}");
        }
    }
    for (field, others) in (0..100).flat_map(|field| [0, 59, 60].map(|others| (field, others))) {
        for [hour, minute, second] in [[field, others, others], [23, field, others], [23, others, field], [24, field, others]] {
            let text = format!("1970-01-01T{hour:02}:{minute:02}:{second:02}Z");
            let there = hour < 24 && minute < 60 && second < 60;
            assert_eq!(read(&text), if there { Ok(3600 * hour + 60 * minute + second) } else { Err(26) }, "{text}");
        }
    }
}

fn order() {
    // What 26 refuses, each with a byte too many.
    for text in ["0000-01-01T00:00:00Z", "1970-13-01T00:00:00Z", "1970-04-31T00:00:00Z", "1990-12-31T23:59:60Z", "1970-01-01T00:00:00+24:00"] {
        assert_eq!((read(text), read(format!("{text} "))), (Err(26), Err(25)), "{text}");
    }
    // What 27 would refuse, with each part in turn one that 26 refuses; and with a byte too many.
    for text in ["0001-01-01T00:00:00+00:01", "9999-12-31T23:59:59-00:01"] {
        assert_eq!((read(text), read(format!("{text}Z"))), (Err(27), Err(25)));
        for at in [5, 8, 11, 14, 17, 20, 23] {
            let other = format!("{}99{}", &text[..at], &text[at + 2..]);
            assert_eq!(read(&other), Err(26), "{other}");
        }
    }
}

/// Good texts, short and long.
const GOOD: [&str; 5] = [
    "1970-01-01T00:00:00Z",
    "2024-02-29t12:34:56.789z",
    "0001-01-01T00:00:00.123456789-23:59",
    "9999-12-31T23:59:59+00:00",
    "1999-09-19T19:09:19.9-09:19",
];

fn damaged() {
    for text in GOOD.map(str::as_bytes) {
        assert!(due(text).is_ok());
        for at in 0..=text.len() {
            let (before, after) = text.split_at(at);
            let cut = before.to_vec();
            let less = [before, after.get(1..).unwrap_or_default()].concat();
            let with = |byte: u8, after: &[u8]| [before, &[byte], after].concat();
            let more = (0..=255).map(|byte| with(byte, after));
            let other = (0..=255).map(|byte| with(byte, after.get(1..).unwrap_or_default()));
            for text in more.chain(other).chain([cut, less]) {
                assert_eq!(read(&text), due(&text), "{}", shown(&text));
            }
        }
    }
}

/// A part of a time, at times one of the ends or past them.
fn some_part(chance: &mut Chance, least: u64, most: u64) -> u64 {
    match chance.below(40) {
        0 => least,
        1 => most,
        2 => (most + 1).min(99),
        3 => 0,
        _ => least + chance.below(most - least + 1),
    }
}

/// A date, at times the first or the last one, from which an offset leads outside the years.
fn some_date(chance: &mut Chance) -> String {
    match chance.below(8) {
        0 => "0001-01-01".to_string(),
        1 => "9999-12-31".to_string(),
        _ => format!("{:04}-{:02}-{:02}", chance.below(10_000), some_part(chance, 1, 12), some_part(chance, 1, 28)),
    }
}

/// No fraction, or a point and up to ten digits.
fn some_fraction(chance: &mut Chance) -> String {
    let digits = chance.below(10_000_000_000);
    format!(".{digits:010}")[..chance.below(12) as usize].to_string()
}

fn some_zone(chance: &mut Chance) -> String {
    match chance.below(4) {
        0 => "Z".to_string(),
        1 => "z".to_string(),
        sign => format!("{}{:02}:{:02}", ["+", "-"][sign as usize - 2], some_part(chance, 0, 23), some_part(chance, 0, 59)),
    }
}

/// A text, mostly of the grammar and of a time that there is.
fn some_text(chance: &mut Chance) -> Vec<u8> {
    let (date, between) = (some_date(chance), ["T", "t"][chance.below(2) as usize]);
    let [hour, minute, second] = [23, 59, 59].map(|most| some_part(chance, 0, most));
    format!("{date}{between}{hour:02}:{minute:02}:{second:02}{}{}", some_fraction(chance), some_zone(chance)).into_bytes()
}

fn by_chance() {
    let (mut chance, mut met) = (Chance(3339), [0; 4]);
    for _ in 0..40_000 {
        let mut text = some_text(&mut chance);
        while chance.once_in(3) {
            let at = chance.below(text.len() as u64) as usize;
            text[at] = if chance.once_in(2) { b"0123456789Tt:Zz+-. /"[chance.below(20) as usize] } else { chance.number() as u8 };
        }
        let expected = due(&text);
        assert_eq!(read(&text), expected, "{}", shown(&text));
        met[expected.err().map_or(0, |number| number as usize - 24)] += 1;
    }
    println!("   {} read; refused: {} by 25, {} by 26, {} by 27", met[0], met[1], met[2], met[3]);
    assert!(met.iter().all(|&times| times > 400), "{met:?}");
}

fn each_month() {
    let mut start = FIRST;
    for (year, month) in (1..=9999).flat_map(|year| (1..=12).map(move |month| (year, month))) {
        let end = start + 86_400 * days_of(year, month);
        both_ways(start, &format!("{year:04}-{month:02}-01T00:00:00Z"));
        both_ways(end - 1, &format!("{year:04}-{month:02}-{:02}T23:59:59Z", days_of(year, month)));
        start = end;
    }
    assert_eq!(start, LAST + 1);
}

fn ordered() {
    let mut chance = Chance(12_345);
    let some = |chance: &mut Chance| FIRST + chance.below((LAST - FIRST + 1) as u64) as i64;
    for _ in 0..20_000 {
        let one = some(&mut chance);
        for other in [some(&mut chance), one, (one + 1).min(LAST), one - one % 60] {
            let [a, b] = [one, other].map(|second| Second(second).to_rfc3339().unwrap());
            assert_eq!((a.cmp(&b), a.as_str().cmp(b.as_str()), a == b), (one.cmp(&other), one.cmp(&other), one == other), "{a} {b}");
        }
    }
}

fn prints() {
    let date = Second(1_709_210_096).to_rfc3339().unwrap();
    assert_eq!((date.to_string(), format!("{date:?}")), ("2024-02-29T12:34:56Z".to_string(), "Rfc3339(\"2024-02-29T12:34:56Z\")".to_string()));
    assert_eq!(format!("{date:>22}|{date:<22}|{date:.10}"), "  2024-02-29T12:34:56Z|2024-02-29T12:34:56Z  |2024-02-29");
    assert_eq!((date.as_ref() as &str).len(), 20);
    for second in [FIRST, -1, 0, LAST] {
        let date = Second(second).to_rfc3339().unwrap();
        assert_eq!((date.to_string().parse(), Second::from(date)), (Ok(date), Second(second)));
    }
    // A second is a number, also where it has no date.
    assert_eq!((Second(0).to_string(), Second(LAST + 1).to_string()), ("0".to_string(), "253402300800".to_string()));
}

fn looked_up() {
    let date: Rfc3339 = "2024-02-29T13:34:56.789+01:00".parse().unwrap();
    assert_eq!((date.as_str(), date.second()), ("2024-02-29T12:34:56Z", Second(1_709_210_096)));
    let refused = ["2024-02-29", "2023-02-29T00:00:00Z", "0001-01-01T00:00:00+00:01"].map(|text| text.parse::<Rfc3339>());
    assert_eq!(refused, [Err(Error::DateGrammar), Err(Error::NoSuchTime), Err(Error::DateOutside)]);
    let tracker = table(8192, 10, &[(100, 1_709_210_000), (164, 1_709_210_060), (230, 1_709_210_120)]);
    assert_eq!(tracker.find_seq(date, FindOption::RoundDown), Ok(Some(Seq(164))));
    let found = tracker.find_ts(100, FindOption::RoundDown).unwrap().unwrap();
    assert_eq!(found.to_rfc3339().unwrap().as_str(), "2024-02-29T12:33:20Z");
    assert_eq!(Second::from_rfc3339(*b"2024-02-29T12:33:20Z"), Ok(found));
}
