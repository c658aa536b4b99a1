//! Seconds and the times of std.
use crate::Second;
use std::fmt;
use std::time::{Duration, SystemTime, UNIX_EPOCH};

/// The second that has begun, as `DateTime::timestamp` of chrono gives it: also before 1970 the earlier one. A time that 64 bits do not hold becomes the
/// nearest that they hold; it is outside the years 0001 to 9999, so that offering it is refused.
impl From<SystemTime> for Second {
    fn from(time: SystemTime) -> Second {
        match time.duration_since(UNIX_EPOCH) {
            Ok(after) => Second(i64::try_from(after.as_secs()).unwrap_or(i64::MAX)),
            Err(e) => {
                let before = e.duration();
                let whole = before.as_secs().saturating_add(u64::from(before.subsec_nanos() > 0));
                Second(i64::try_from(whole).map_or(i64::MIN, |secs| -secs))
            }
        }
    }
}

/// The start of the second. A second of the years 0001 to 9999 is a `SystemTime` on every system for which the library is built.
impl TryFrom<Second> for SystemTime {
    type Error = NoSystemTime;

    fn try_from(second: Second) -> Result<SystemTime, NoSystemTime> {
        let from_1970 = Duration::from_secs(second.0.unsigned_abs());
        let time = if second.0 < 0 { UNIX_EPOCH.checked_sub(from_1970) } else { UNIX_EPOCH.checked_add(from_1970) };
        time.ok_or(NoSystemTime(second))
    }
}

/// No `SystemTime` of this system is the second.
#[derive(Clone, Copy, Debug, PartialEq, Eq, Hash)]
pub struct NoSystemTime(pub Second);

impl fmt::Display for NoSystemTime {
    fn fmt(&self, f: &mut fmt::Formatter<'_>) -> fmt::Result {
        write!(f, "second {} is further from 1970 than this system's times reach", self.0)
    }
}

impl std::error::Error for NoSystemTime {}
