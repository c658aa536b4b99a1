//! Refusals, by number and in words.
use crate::run::Case;
use skutlaneb::bits::Place;
use skutlaneb::sys::Answer;
use skutlaneb::{Array, Error};

pub const CASES: &[Case] = &[
    ("each of the 30 numbers is an error of that number", numbers),
    ("what a number also tells stands in the error", told),
    ("4 to 8 have a place, and no other", placed),
    ("each error has a sentence of its own", sentences),
    ("the sentences of 4 to 8 say where the image stops, and that of 24 what is left", where_it_stops),
    ("a number that is not on the list is told as such", unlisted),
];

fn answer(number: u32) -> Answer {
    Answer { number, a: 1, b: 7, c: 9, byte: 17, bit: 5 }
}

/// The numbers of the list, which has gaps.
fn listed() -> impl Iterator<Item = u32> {
    (1..=27).chain([31, 35, 36])
}

fn numbers() {
    assert_eq!(Error::of(&answer(0)), None);
    for number in listed() {
        let error = Error::of(&answer(number)).unwrap();
        assert_eq!(error.number(), number);
        assert!(!matches!(error, Error::Unlisted { .. }));
    }
}

fn told() {
    let (array, index, at) = (Array::Seconds, 7, Place { byte: 17, bit: 5 });
    let expected = [
        (2, Error::Version { byte: 1 }),
        (4, Error::CountCut { array, at }),
        (5, Error::FirstCut { array, at }),
        (6, Error::CodeMissing { array, index, at }),
        (7, Error::PrefixCut { array, index, at }),
        (8, Error::DifferenceCut { array, index, width: 9, at }),
        (9, Error::CountDiffers { array }),
        (10, Error::TooManyPairs { array }),
        (11, Error::SequenceDrops { index: 1 }),
        (12, Error::SecondDrops { index: 1 }),
        (13, Error::SecondOutside { index: 1 }),
        (20, Error::Wide { array, index }),
        (21, Error::Room { bytes: 1 }),
        (24, Error::BitsShort { left: 1 }),
        (25, Error::DateGrammar),
        (26, Error::NoSuchTime),
        (27, Error::DateOutside),
        (31, Error::TotalsFull),
        (35, Error::TooManyQuestions),
        (36, Error::BadQuestion),
    ];
    for (number, error) in expected {
        assert_eq!(Error::of(&answer(number)), Some(error));
    }
    let least = Error::CountCut { array: Array::Sequences, at: Place::default() };
    assert_eq!(Error::of(&Answer { number: 4, ..Answer::default() }), Some(least));
}

fn placed() {
    for number in 1..=37 {
        let place = Error::of(&answer(number)).and_then(|error| error.place());
        assert_eq!(place, (4..=8).contains(&number).then_some(Place { byte: 17, bit: 5 }));
    }
}

fn sentences() {
    let mut all: Vec<String> = listed().map(|number| Error::of(&answer(number)).unwrap().to_string()).collect();
    assert!(all.iter().all(|sentence| sentence.contains(' ') && !sentence.ends_with('.')));
    all.sort();
    all.dedup();
    assert_eq!(all.len(), 30);
    assert_eq!(Error::Version { byte: 2 }.to_string(), "the bytes start with version 2, and only version 1 is known");
    assert_eq!(Error::LengthsDiffer.to_string(), "the arrays or lists of one call differ in length");
    assert_eq!(Error::DateGrammar.to_string(), "the text is not a date-time of RFC 3339, such as 1970-01-01T00:00:00Z");
    assert_eq!(Error::NoSuchTime.to_string(), "there is no such date, time of day or offset");
    assert_eq!(Error::DateOutside.to_string(), "the date, in UTC, is outside the years 0001 to 9999");
    assert_eq!(Error::TotalsFull.to_string(), "the table has counted 2^64-1 offers, and cannot count one more");
    assert_eq!(Error::TooManyQuestions.to_string(), "the sheet has more than sixteen questions");
    assert_eq!(Error::InputTooLong.to_string(), "the input has more bytes than the program takes");
    assert_eq!(Error::BadQuestion.to_string(), "the input does not begin with the line of a question");
}

fn where_it_stops() {
    let (array, at) = (Array::Sequences, Place { byte: 17, bit: 0 });
    let seconds = Place { byte: 1_000_000, bit: 7 };
    let said = [
        (Error::CountCut { array, at }, "the image stops at byte 17, bit 0, at the count of the sequences, which begins there: its 32 bits are not all there"),
        (Error::FirstCut { array, at }, "the image stops at byte 17, bit 0, at the first of the sequences, which begins there: its 64 bits are not all there"),
        (
            Error::CodeMissing { array, index: 1, at },
            "the image stops at byte 17, bit 0, before the code of value 1 of the sequences: no bit of it is there",
        ),
        (
            Error::PrefixCut { array: Array::Seconds, index: 8, at: seconds },
            "the image stops at byte 1000000, bit 7, within the code of value 8 of the seconds, which begins there: its prefix is not all there",
        ),
        (
            Error::DifferenceCut { array, index: 1, width: 7, at },
            "the image stops at byte 17, bit 0, within the code of value 1 of the sequences, which begins there: the 7 bits after its prefix are not all there",
        ),
        (Error::BitsShort { left: 0 }, "no bit is left, and more were asked for"),
        (Error::BitsShort { left: 1 }, "only 1 bit is left, and more were asked for"),
        (Error::BitsShort { left: 63 }, "only 63 bits are left, and more were asked for"),
    ];
    for (error, sentence) in said {
        assert_eq!(error.to_string(), sentence);
    }
    assert_eq!(at.to_string(), "byte 17, bit 0");
}

fn unlisted() {
    for number in (28..=30).chain(32..=34).chain([37, u32::MAX]) {
        let error = Error::of(&answer(number)).unwrap();
        assert_eq!((error, error.number()), (Error::Unlisted { number }, number));
        assert!(error.to_string().contains(&number.to_string()));
    }
}
