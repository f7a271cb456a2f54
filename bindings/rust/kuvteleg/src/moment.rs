use std::fmt;
use std::ops::RangeInclusive;
use std::time::{Duration, SystemTime, UNIX_EPOCH};

/// An instant: seconds since 1970-01-01T00:00:00Z, negative before it, and nanoseconds after them. Leap seconds are not counted.
///
/// Calls refuse ([`Refusal::BadMoment`](crate::Refusal::BadMoment)) one before `-009999-01-02T01:59:59Z` or after
/// `9999-12-30T22:00:00.999999999Z`, or of more than 999,999,999 nanoseconds. It is printed as in replies, and read from no text: a
/// moment that is a text goes on a line ([`Resolver::line`](crate::Resolver::line), [`Reader::line`](crate::Reader::line)).
///
/// ```
/// # use kuvteleg::Moment;
/// # use std::time::{Duration, UNIX_EPOCH};
/// assert_eq!(Moment::from(UNIX_EPOCH - Duration::from_millis(500)), Moment::new(-1, 500_000_000));
/// assert_eq!(Moment::new(-1, 500_000_000).to_string(), "1969-12-31T23:59:59.5Z");
/// ```
#[derive(Clone, Copy, Debug, PartialEq, Eq, PartialOrd, Ord, Hash)]
pub struct Moment {
    seconds: i64,
    nanoseconds: u32,
}

/// The whole seconds of the moments that calls take.
const TAKEN: RangeInclusive<i64> = -377_705_023_201..=253_402_207_200;

impl Moment {
    /// The instant that is so many seconds and nanoseconds after 1970-01-01T00:00:00Z.
    pub const fn new(seconds: i64, nanoseconds: u32) -> Moment {
        Moment { seconds, nanoseconds }
    }

    /// The current time of the system's clock.
    pub fn now() -> Moment {
        SystemTime::now().into()
    }

    /// Whole seconds, rounded down.
    pub const fn seconds(self) -> i64 {
        self.seconds
    }

    /// Nanoseconds after the whole seconds.
    pub const fn nanoseconds(self) -> u32 {
        self.nanoseconds
    }

    /// The same instant of the system's clock; none where that has no such instant.
    pub fn to_system_time(self) -> Option<SystemTime> {
        let whole = Duration::from_secs(self.seconds.unsigned_abs());
        let start = if self.seconds < 0 { UNIX_EPOCH.checked_sub(whole) } else { UNIX_EPOCH.checked_add(whole) };
        start?.checked_add(Duration::from_nanos(self.nanoseconds.into()))
    }

    /// Whether calls take it. Of more nanoseconds it is printed as another moment, so no line has it.
    pub(crate) fn is_taken(&self) -> bool {
        TAKEN.contains(&self.seconds) && self.nanoseconds < 1_000_000_000
    }

    /// The moment that a reply has as this word.
    pub(crate) fn of_word(word: &str) -> Option<Moment> {
        let (date, time) = word.strip_suffix('Z')?.split_once('T')?;
        let (time, fraction) = time.split_once('.').unwrap_or((time, ""));
        let (sign, date) = date.strip_prefix('-').map_or((1, date), |it| (-1, it));
        let [year, month, day] = numbers(date, '-')?;
        let [hour, minute, second] = numbers(time, ':')?;
        let seconds = days(sign * year, month, day) * 86_400 + hour * 3_600 + minute * 60 + second;
        Some(Moment::new(seconds, format!("{fraction:0<9}").parse().ok()?))
    }
}

impl From<SystemTime> for Moment {
    fn from(time: SystemTime) -> Moment {
        let whole = |it: Duration| i64::try_from(it.as_secs()).unwrap_or(i64::MAX);
        match time.duration_since(UNIX_EPOCH) {
            Ok(after) => Moment::new(whole(after), after.subsec_nanos()),
            Err(before) => match (whole(before.duration()), before.duration().subsec_nanos()) {
                (seconds, 0) => Moment::new(-seconds, 0),
                (seconds, nanoseconds) => Moment::new(-seconds - 1, 1_000_000_000 - nanoseconds),
            },
        }
    }
}

/// The year, month and day that are so many days after 1970-01-01, on the calendar of years that begin in March.
fn date(days: i64) -> (i64, i64, i64) {
    let days = days + 719_468;
    let (era, day) = (days.div_euclid(146_097), days.rem_euclid(146_097));
    let year = (day - day / 1_460 + day / 36_524 - day / 146_096) / 365;
    let day = day - (365 * year + year / 4 - year / 100);
    let month = (5 * day + 2) / 153;
    let civil = if month < 10 { month + 3 } else { month - 9 };
    (year + era * 400 + i64::from(civil <= 2), civil, day - (153 * month + 2) / 5 + 1)
}

/// The days from 1970-01-01 to a date, the other way round.
fn days(year: i64, month: i64, day: i64) -> i64 {
    let year = year - i64::from(month <= 2);
    let (era, year) = (year.div_euclid(400), year.rem_euclid(400));
    let day = (153 * ((month + 9) % 12) + 2) / 5 + day - 1;
    era * 146_097 + 365 * year + year / 4 - year / 100 + day - 719_468
}

/// Three numbers with a mark between them.
fn numbers(text: &str, mark: char) -> Option<[i64; 3]> {
    let mut numbers = text.split(mark).map(|it| it.parse().ok());
    let three = [numbers.next()??, numbers.next()??, numbers.next()??];
    numbers.next().is_none().then_some(three)
}

impl fmt::Display for Moment {
    fn fmt(&self, f: &mut fmt::Formatter<'_>) -> fmt::Result {
        let (year, month, day) = date(self.seconds.div_euclid(86_400));
        let rest = self.seconds.rem_euclid(86_400);
        if year < 0 {
            write!(f, "-{:06}", -year)?;
        } else {
            write!(f, "{year:04}")?;
        }
        write!(f, "-{month:02}-{day:02}T{:02}:{:02}:{:02}", rest / 3_600, rest / 60 % 60, rest % 60)?;
        if self.nanoseconds > 0 {
            write!(f, ".{}", format!("{:09}", self.nanoseconds).trim_end_matches('0'))?;
        }
        f.write_str("Z")
    }
}
