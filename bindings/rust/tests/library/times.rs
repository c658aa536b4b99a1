//! Seconds and the times of std, and what the docs say of chrono.
use crate::run::Case;
use skutlaneb::{NoSystemTime, Second};
use std::time::{Duration, SystemTime, UNIX_EPOCH};

pub const CASES: &[Case] = &[
    ("a time is the second that has begun, also before 1970", times),
    ("a second is the time at which it begins", starts),
    ("what is no time of this system is told by its second", none),
    ("the lines that the docs show for chrono are those that are run with it", chrono),
];

fn times() {
    let half = Duration::from_millis(500);
    assert_eq!(Second::from(UNIX_EPOCH), Second(0));
    assert_eq!(Second::from(UNIX_EPOCH + half), Second(0));
    assert_eq!(Second::from(UNIX_EPOCH + 3 * half), Second(1));
    assert_eq!(Second::from(UNIX_EPOCH - half), Second(-1));
    assert_eq!(Second::from(UNIX_EPOCH - 2 * half), Second(-1));
    assert_eq!(Second::from(UNIX_EPOCH - 3 * half), Second(-2));
}

fn starts() {
    assert_eq!(SystemTime::try_from(Second(0)), Ok(UNIX_EPOCH));
    assert_eq!(SystemTime::try_from(Second(90)), Ok(UNIX_EPOCH + Duration::from_secs(90)));
    assert_eq!(SystemTime::try_from(Second(-1)), Ok(UNIX_EPOCH - Duration::from_secs(1)));
    for second in [-62_135_596_800, -1, 0, 1, 253_402_300_799, i64::MAX, i64::MIN + 1] {
        assert_eq!(SystemTime::try_from(Second(second)).map(Second::from), Ok(Second(second)));
    }
    // Whether this one is a time depends on std; it is the same second then, and no panic in any case.
    assert!(matches!(SystemTime::try_from(Second(i64::MIN)).map(Second::from), Ok(Second(i64::MIN)) | Err(NoSystemTime(Second(i64::MIN)))));
}

fn none() {
    let error: Box<dyn std::error::Error> = NoSystemTime(Second(-7)).into();
    assert_eq!(error.to_string(), "second -7 is further from 1970 than this system's times reach");
}

fn chrono() {
    let (docs, run) = (include_str!("../../src/values.rs"), include_str!("../chrono/main.rs"));
    let shown: Vec<&str> = docs.lines().filter_map(|line| line.strip_prefix("/// let ")).collect();
    assert_eq!(shown.len(), 4);
    for line in shown {
        let code = line.split(" // ").next().unwrap_or(line);
        assert!(run.lines().any(|line| line.trim().strip_prefix("let ").is_some_and(|rest| rest == code)), "{code}");
    }
}
