//! Seconds as dates: the texts of RFC 3339.
use crate::calls::{self, done};
use crate::{Error, Second};
use std::fmt;
use std::str::FromStr;

/// The bytes of `YYYY-MM-DDTHH:MM:SSZ`.
const LENGTH: usize = 20;

impl Second {
    /// The second's date, `YYYY-MM-DDTHH:MM:SSZ`. Refused outside the years 0001 to 9999 (27). Nothing is allocated.
    ///
    /// It is proved of the library that every second of these years is read back from its own date.
    ///
    /// ```no_run
    /// # use skutlaneb::Second;
    /// # fn main() -> Result<(), skutlaneb::Error> {
    /// let date = Second(1_709_210_096).to_rfc3339()?;
    /// assert_eq!(date.as_str(), "2024-02-29T12:34:56Z");
    /// assert_eq!(Second::from_rfc3339(date.as_str())?, Second(1_709_210_096));
    /// assert_eq!(Second(253_402_300_800).to_rfc3339().unwrap_err().number(), 27);
    /// # Ok(())
    /// # }
    /// ```
    pub fn to_rfc3339(self) -> Result<Rfc3339, Error> {
        let mut text = [0; LENGTH];
        done(calls::write_date(self.0, &mut text))?;
        Ok(Rfc3339 { second: self, text })
    }

    /// The second of a date-time of RFC 3339, which is the whole text: with `T` and `Z` in either case, with `Z` or an offset, `+hh:mm` or `-hh:mm`, and with or
    /// without a fraction of one to nine digits. The fraction is left out, so that it is the second that has begun, also before 1970.
    ///
    /// Refused, in this order, where the text is not of that form (25), where there is no such date, time of day or offset (26), and where the second, once the
    /// offset is applied, is outside the years 0001 to 9999 (27). Year 0000, second 60 and an offset of more than 23 hours or 59 minutes are refused by 26.
    ///
    /// ```no_run
    /// # use skutlaneb::{Error, Second};
    /// assert_eq!(Second::from_rfc3339("1970-01-01T01:00:00.25+01:00"), Ok(Second(0)));
    /// assert_eq!(Second::from_rfc3339(b"1969-12-31t23:59:59.999999999z"), Ok(Second(-1)));
    /// assert_eq!(Second::from_rfc3339("1970-01-01 00:00:00Z"), Err(Error::DateGrammar)); // a space for T
    /// assert_eq!(Second::from_rfc3339("1900-02-29T00:00:00Z"), Err(Error::NoSuchTime)); // no leap year
    /// assert_eq!(Second::from_rfc3339("0001-01-01T00:00:00+00:01"), Err(Error::DateOutside)); // in year 0000 by UTC
    /// ```
    pub fn from_rfc3339(text: impl AsRef<[u8]>) -> Result<Second, Error> {
        done(calls::read_date(text.as_ref())).map(|read| Second(read.a as i64))
    }
}

/// A second of the years 0001 to 9999 as its date, `YYYY-MM-DDTHH:MM:SSZ`: what [`Second::to_rfc3339`] gives. Dates are ordered as their seconds are, and their
/// texts, byte by byte, are in the same order.
///
/// A [`Second`] prints as a number, and any number is one; not every one has a date. So that each type is read from what it prints, `parse` is of this type, and
/// not of `Second`. It takes what [`Second::from_rfc3339`] takes, and what it gives prints in the one form above. A lookup takes it as a second:
///
/// ```no_run
/// # use skutlaneb::{FindOption, Rfc3339, SequenceTracker};
/// # fn main() -> Result<(), Box<dyn std::error::Error>> {
/// # let tracker = SequenceTracker::new();
/// let date: Rfc3339 = "2024-02-29T13:34:56.789+01:00".parse()?;
/// assert_eq!(date.to_string(), "2024-02-29T12:34:56Z");
/// let as_of = tracker.find_seq(date, FindOption::RoundDown)?;
/// # Ok(())
/// # }
/// ```
#[derive(Clone, Copy, PartialEq, Eq, PartialOrd, Ord, Hash)]
pub struct Rfc3339 {
    second: Second,
    text: [u8; LENGTH],
}

impl Rfc3339 {
    /// The second of which this is the date.
    pub fn second(&self) -> Second {
        self.second
    }

    /// The date's twenty bytes.
    pub fn as_str(&self) -> &str {
        std::str::from_utf8(&self.text).expect("the library writes ASCII")
    }
}

/// By [`Second::from_rfc3339`].
impl FromStr for Rfc3339 {
    type Err = Error;

    fn from_str(text: &str) -> Result<Rfc3339, Error> {
        Second::from_rfc3339(text)?.to_rfc3339()
    }
}

impl From<Rfc3339> for Second {
    fn from(date: Rfc3339) -> Second {
        date.second
    }
}

impl AsRef<str> for Rfc3339 {
    fn as_ref(&self) -> &str {
        self.as_str()
    }
}

impl fmt::Display for Rfc3339 {
    fn fmt(&self, f: &mut fmt::Formatter<'_>) -> fmt::Result {
        f.pad(self.as_str())
    }
}

impl fmt::Debug for Rfc3339 {
    fn fmt(&self, f: &mut fmt::Formatter<'_>) -> fmt::Result {
        f.debug_tuple("Rfc3339").field(&self.as_str()).finish()
    }
}
