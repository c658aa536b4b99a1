//! Refusals, by the numbers of the list of refusals in docs/RULES.md.
use crate::bits::Place;
use crate::sys::Answer;
use std::fmt;

/// One of the two arrays of an image, in the order in which they stand there.
#[derive(Clone, Copy, Debug, PartialEq, Eq, PartialOrd, Ord, Hash)]
pub enum Array {
    /// The sequence numbers.
    Sequences,
    /// The seconds.
    Seconds,
}

impl Array {
    fn of(number: u64) -> Array {
        if number == 0 {
            Array::Sequences
        } else {
            Array::Seconds
        }
    }
}

impl fmt::Display for Array {
    fn fmt(&self, f: &mut fmt::Formatter<'_>) -> fmt::Result {
        f.write_str(match self {
            Array::Sequences => "sequences",
            Array::Seconds => "seconds",
        })
    }
}

/// Why a call was refused: a number of the list of refusals in docs/RULES.md, with what it also tells. `array` says which of the two it was, and `index`,
/// counted from 0, at which of its values.
///
/// `at`, of 4 to 8, says where the bytes stop: it is the place, in the bytes that were given, at which the item begins that is not there in full. What stands before it
/// was read. [`Error::place`] gives it for all five.
///
/// ```no_run
/// # use skutlaneb::{bits::Place, SequenceTracker, TrackedSeq};
/// # fn main() -> Result<(), Box<dyn std::error::Error>> {
/// let mut tracker = SequenceTracker::new();
/// tracker.insert_all(&[(100, 0), (164, 60)].map(TrackedSeq::from))?;
/// let stored = tracker.to_bytes_strict()?; // 33 bytes; the last code, of 9 bits, begins at byte 31
/// let error = SequenceTracker::from_bytes(&stored[..32]).unwrap_err();
/// assert_eq!((error.number(), error.place()), (8, Some(Place { byte: 31, bit: 0 })));
/// # Ok(())
/// # }
/// ```
#[derive(Clone, Copy, Debug, PartialEq, Eq, Hash)]
#[non_exhaustive]
pub enum Error {
    /// 1: the input is empty.
    Empty,
    /// 2: the first byte is not 1, the version.
    Version { byte: u8 },
    /// 3: the input has fewer than 5 bytes.
    HeaderCut,
    /// 4: the input ends in an array's count, which begins at `at`. Fewer than 32 bits follow that place.
    CountCut { array: Array, at: Place },
    /// 5: the input ends in an array's first value, which begins at `at`. Fewer than 64 bits follow that place.
    FirstCut { array: Array, at: Place },
    /// 6: the input ends before a code, which would begin at `at`. That place is the input's end.
    CodeMissing { array: Array, index: u64, at: Place },
    /// 7: the input ends in the prefix of a code, which begins at `at`. One to three bits follow that place, all ones.
    PrefixCut { array: Array, index: u64, at: Place },
    /// 8: the input ends in a code's difference, of `width` bits. The code begins at `at`, with its prefix, and the difference after that.
    DifferenceCut { array: Array, index: u64, width: u64, at: Place },
    /// 9: an array's count is not the header's.
    CountDiffers { array: Array },
    /// 10: an array has more values than there is room for.
    TooManyPairs { array: Array },
    /// 11: a sequence is below the one before it.
    SequenceDrops { index: u64 },
    /// 12: a second is below the one before it.
    SecondDrops { index: u64 },
    /// 13: a second is outside the years 0001 to 9999.
    SecondOutside { index: u64 },
    /// 14: a table's state and its arrays do not fit together, or its totals add up to more than 2^64-1.
    StateDisagrees,
    /// 15: the capacity is above 8,192 or the interval above 2^63-1.
    Settings,
    /// 16: the offered second is outside the years 0001 to 9999.
    OfferedOutside,
    /// 17: the offered sequence is below the last kept one.
    OfferedDrops,
    /// 18: the two arrays to encode, two lists of offers, or the questions, answers and marks of a list, differ in length.
    LengthsDiffer,
    /// 19: each array to encode has more than 65,536 values.
    TooManyValues,
    /// 20: saved, the table would read back as other pairs: a difference of deltas is outside -2^31..2^31-1.
    Wide { array: Array, index: u64 },
    /// 21: the output is too short, and the bytes that it would have to have.
    Room { bytes: u64 },
    /// 22: the input of the program `listing` or `listing_dates` is above 16,384 bytes, or that of `why` above 65,536. No call answers it.
    InputTooLong,
    /// 23: a bit width is above 64, or outside 1..32 in sign extension.
    Width,
    /// 24: fewer bits are left than asked for, and how many are: 0 to 63.
    BitsShort { left: u8 },
    /// 25: the text is not a date-time of RFC 3339's grammar, or its fraction has more than nine digits.
    DateGrammar,
    /// 26: the text is of that form, but there is no such date, time of day or offset. Year 0000 and second 60 are refused by this, too.
    NoSuchTime,
    /// 27: the second is outside the years 0001 to 9999: the one to write as a date or, of a text, the one that is left once its offset is applied.
    DateOutside,
    /// 31: the table's totals add up to 2^64-1, and one more offer would pass that. The offer is not counted.
    TotalsFull,
    /// 35: a sheet has more than sixteen questions.
    TooManyQuestions,
    /// 36: the input of the program `why` does not begin with the line of a question. No call answers it.
    BadQuestion,
    /// A number that is not on the list, or the number of a [`Reason`](crate::Reason) that is none of the six or does not fit its answer: the library is not the one
    /// that this crate was written for.
    Unlisted { number: u32 },
}

impl Error {
    /// The number in the list of refusals in docs/RULES.md; of `Unlisted`, the number that the library answered, a refusal's or a reason's.
    pub fn number(&self) -> u32 {
        match *self {
            Error::Empty => 1,
            Error::Version { .. } => 2,
            Error::HeaderCut => 3,
            Error::CountCut { .. } => 4,
            Error::FirstCut { .. } => 5,
            Error::CodeMissing { .. } => 6,
            Error::PrefixCut { .. } => 7,
            Error::DifferenceCut { .. } => 8,
            Error::CountDiffers { .. } => 9,
            Error::TooManyPairs { .. } => 10,
            Error::SequenceDrops { .. } => 11,
            Error::SecondDrops { .. } => 12,
            Error::SecondOutside { .. } => 13,
            Error::StateDisagrees => 14,
            Error::Settings => 15,
            Error::OfferedOutside => 16,
            Error::OfferedDrops => 17,
            Error::LengthsDiffer => 18,
            Error::TooManyValues => 19,
            Error::Wide { .. } => 20,
            Error::Room { .. } => 21,
            Error::InputTooLong => 22,
            Error::Width => 23,
            Error::BitsShort { .. } => 24,
            Error::DateGrammar => 25,
            Error::NoSuchTime => 26,
            Error::DateOutside => 27,
            Error::TotalsFull => 31,
            Error::TooManyQuestions => 35,
            Error::BadQuestion => 36,
            Error::Unlisted { number } => number,
        }
    }

    /// Where the bytes stop: the place of 4 to 8, at which the item begins that is not there in full. The others tell none.
    pub fn place(&self) -> Option<Place> {
        match *self {
            Error::CountCut { at, .. } | Error::FirstCut { at, .. } => Some(at),
            Error::CodeMissing { at, .. } | Error::PrefixCut { at, .. } | Error::DifferenceCut { at, .. } => Some(at),
            _ => None,
        }
    }

    /// The refusal that an answer of [`crate::sys`] tells, or none where the call was not refused.
    pub fn of(answer: &Answer) -> Option<Error> {
        let (array, index) = (Array::of(answer.a), answer.b);
        let at = Place { byte: answer.byte as usize, bit: answer.bit as u8 };
        Some(match answer.number {
            0 => return None,
            1 => Error::Empty,
            2 => Error::Version { byte: answer.a as u8 },
            3 => Error::HeaderCut,
            4 => Error::CountCut { array, at },
            5 => Error::FirstCut { array, at },
            6 => Error::CodeMissing { array, index, at },
            7 => Error::PrefixCut { array, index, at },
            8 => Error::DifferenceCut { array, index, width: answer.c, at },
            9 => Error::CountDiffers { array },
            10 => Error::TooManyPairs { array },
            11 => Error::SequenceDrops { index: answer.a },
            12 => Error::SecondDrops { index: answer.a },
            13 => Error::SecondOutside { index: answer.a },
            14 => Error::StateDisagrees,
            15 => Error::Settings,
            16 => Error::OfferedOutside,
            17 => Error::OfferedDrops,
            18 => Error::LengthsDiffer,
            19 => Error::TooManyValues,
            20 => Error::Wide { array, index },
            21 => Error::Room { bytes: answer.a },
            22 => Error::InputTooLong,
            23 => Error::Width,
            24 => Error::BitsShort { left: answer.a as u8 },
            25 => Error::DateGrammar,
            26 => Error::NoSuchTime,
            27 => Error::DateOutside,
            31 => Error::TotalsFull,
            35 => Error::TooManyQuestions,
            36 => Error::BadQuestion,
            number => Error::Unlisted { number },
        })
    }
}

impl fmt::Display for Error {
    fn fmt(&self, f: &mut fmt::Formatter<'_>) -> fmt::Result {
        if let Some(at) = self.place() {
            write!(f, "the image stops at {at}, ")?;
        }
        match self {
            Error::Empty => f.write_str("there are no bytes to read a table from"),
            Error::Version { byte } => write!(f, "the bytes start with version {byte}, and only version 1 is known"),
            Error::HeaderCut => f.write_str("the bytes end within the header, which has 5 bytes"),
            Error::CountCut { array, .. } => write!(f, "at the count of the {array}, which begins there: its 32 bits are not all there"),
            Error::FirstCut { array, .. } => write!(f, "at the first of the {array}, which begins there: its 64 bits are not all there"),
            Error::CodeMissing { array, index, .. } => write!(f, "before the code of value {index} of the {array}: no bit of it is there"),
            Error::PrefixCut { array, index, .. } => {
                write!(f, "within the code of value {index} of the {array}, which begins there: its prefix is not all there")
            }
            Error::DifferenceCut { array, index, width, .. } => {
                write!(f, "within the code of value {index} of the {array}, which begins there: the {width} bits after its prefix are not all there")
            }
            Error::CountDiffers { array } => write!(f, "the {array} are not as many as the header says"),
            Error::TooManyPairs { array } => write!(f, "the {array} are more than there is room for"),
            Error::SequenceDrops { index } => write!(f, "sequence {index} is below the one before it"),
            Error::SecondDrops { index } => write!(f, "second {index} is below the one before it"),
            Error::SecondOutside { index } => write!(f, "second {index} is outside the years 0001 to 9999"),
            Error::StateDisagrees => f.write_str("the table's state and its pairs do not fit together, or its totals are too large"),
            Error::Settings => f.write_str("the capacity is above 8,192 or the interval above 2^63-1 seconds"),
            Error::OfferedOutside => f.write_str("the second is outside the years 0001 to 9999"),
            Error::OfferedDrops => f.write_str("the sequence number is below the last one that the table keeps"),
            Error::LengthsDiffer => f.write_str("the arrays or lists of one call differ in length"),
            Error::TooManyValues => f.write_str("there are more than 65,536 values to encode"),
            Error::Wide { array, index } => write!(
                f,
                "saved, the table would read back as other pairs: value {index} of the {array} is too far from where the two before it lead"
            ),
            Error::Room { bytes } => write!(f, "the output is too short: {bytes} bytes are needed"),
            Error::InputTooLong => f.write_str("the input has more bytes than the program takes"),
            Error::Width => f.write_str("so many bits cannot be read, written or extended at once"),
            Error::BitsShort { left: 0 } => f.write_str("no bit is left, and more were asked for"),
            Error::BitsShort { left: 1 } => f.write_str("only 1 bit is left, and more were asked for"),
            Error::BitsShort { left } => write!(f, "only {left} bits are left, and more were asked for"),
            Error::DateGrammar => f.write_str("the text is not a date-time of RFC 3339, such as 1970-01-01T00:00:00Z"),
            Error::NoSuchTime => f.write_str("there is no such date, time of day or offset"),
            Error::DateOutside => f.write_str("the date, in UTC, is outside the years 0001 to 9999"),
            Error::TotalsFull => f.write_str("the table has counted 2^64-1 offers, and cannot count one more"),
            Error::TooManyQuestions => f.write_str("the sheet has more than sixteen questions"),
            Error::BadQuestion => f.write_str("the input does not begin with the line of a question"),
            Error::Unlisted { number } => {
                write!(f, "the library answered {number}, which this crate does not know: the two are of different versions")
            }
        }
    }
}

impl std::error::Error for Error {}
