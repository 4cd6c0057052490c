//! A stand-in for chrono (0.4.32 or later): what parquet-variant 60.0.0 names of it, and no
//! more. A date is a number of days since 1970-01-01, within chrono's own range: from the first
//! day of the year -262143 to the last of the year 262142.

const MIN_DAY: i64 = days_from_civil(-262_143, 1, 1);
const MAX_DAY: i64 = days_from_civil(262_142, 12, 31);
const SECONDS_A_DAY: i128 = 86_400;
const NANOS_A_SECOND: i128 = 1_000_000_000;

/// Days since 1970-01-01 of a day of the Gregorian calendar, counting in years from March.
const fn days_from_civil(year: i64, month: i64, day: i64) -> i64 {
    let year = if month <= 2 { year - 1 } else { year };
    let era = year.div_euclid(400);
    let of_era = year.rem_euclid(400);
    let of_year = (153 * ((month + 9) % 12) + 2) / 5 + day - 1;
    era * 146_097 + of_era * 365 + of_era / 4 - of_era / 100 + of_year - 719_468
}

const fn is_in_range(day: i64) -> bool {
    MIN_DAY <= day && day <= MAX_DAY
}

#[derive(Debug, Clone, Copy, PartialEq, Eq, PartialOrd, Ord)]
pub struct Duration {
    days: i64,
}

impl Duration {
    pub const fn days(days: i64) -> Self {
        Duration { days }
    }

    pub const fn num_days(&self) -> i64 {
        self.days
    }
}

#[derive(Debug, Clone, Copy, PartialEq, Eq, PartialOrd, Ord)]
pub struct NaiveDate(i32);

impl NaiveDate {
    pub const fn from_ymd_opt(year: i32, month: u32, day: u32) -> Option<Self> {
        let leap = year % 4 == 0 && (year % 100 != 0 || year % 400 == 0);
        let length = match month {
            2 => 28 + leap as u32,
            4 | 6 | 9 | 11 => 30,
            1..=12 => 31,
            _ => 0,
        };
        let number = days_from_civil(year as i64, month as i64, day as i64);
        if day == 0 || day > length || !is_in_range(number) {
            return None;
        }
        Some(NaiveDate(number as i32))
    }

    pub const fn signed_duration_since(self, earlier: NaiveDate) -> Duration {
        Duration::days(self.0 as i64 - earlier.0 as i64)
    }
}

#[derive(Debug, Clone, Copy, PartialEq, Eq, PartialOrd, Ord)]
pub struct NaiveTime {
    secs: u32,
    nanos: u32,
}

impl NaiveTime {
    pub const fn from_num_seconds_from_midnight_opt(secs: u32, nanos: u32) -> Option<Self> {
        let leap_second = nanos >= 1_000_000_000;
        if secs >= 86_400 || nanos >= 2_000_000_000 || (leap_second && secs % 60 != 59) {
            return None;
        }
        Some(NaiveTime { secs, nanos })
    }
}

#[derive(Debug, Clone, Copy, PartialEq, Eq, PartialOrd, Ord)]
pub struct NaiveDateTime {
    date: NaiveDate,
    time: NaiveTime,
}

impl NaiveDateTime {
    pub const fn and_utc(&self) -> DateTime<Utc> {
        DateTime(*self, Utc)
    }
}

#[derive(Debug, Clone, Copy, PartialEq, Eq, PartialOrd, Ord)]
pub struct Utc;

#[derive(Debug, Clone, Copy, PartialEq, Eq, PartialOrd, Ord)]
pub struct DateTime<Tz>(NaiveDateTime, Tz);

impl DateTime<Utc> {
    pub const UNIX_EPOCH: Self = DateTime(
        NaiveDateTime {
            date: NaiveDate(0),
            time: NaiveTime { secs: 0, nanos: 0 },
        },
        Utc,
    );

    fn from_nanos(nanos: i128) -> Option<Self> {
        let seconds = nanos.div_euclid(NANOS_A_SECOND);
        let time = NaiveTime {
            secs: seconds.rem_euclid(SECONDS_A_DAY) as u32,
            nanos: nanos.rem_euclid(NANOS_A_SECOND) as u32,
        };
        Self::at(seconds.div_euclid(SECONDS_A_DAY) as i64, time)
    }

    fn at(day: i64, time: NaiveTime) -> Option<Self> {
        let date = NaiveDate(day as i32);
        is_in_range(day).then_some(DateTime(NaiveDateTime { date, time }, Utc))
    }

    fn nanos(&self) -> i128 {
        let NaiveDateTime { date, time } = self.0;
        let seconds = i128::from(date.0) * SECONDS_A_DAY + i128::from(time.secs);
        seconds * NANOS_A_SECOND + i128::from(time.nanos)
    }

    pub fn from_timestamp_micros(micros: i64) -> Option<Self> {
        Self::from_nanos(i128::from(micros) * 1000)
    }

    pub fn from_timestamp_nanos(nanos: i64) -> Self {
        Self::from_nanos(i128::from(nanos)).expect("the range has every i64 of nanoseconds")
    }

    pub fn timestamp_micros(&self) -> i64 {
        self.nanos().div_euclid(1000) as i64
    }

    pub fn timestamp_nanos_opt(&self) -> Option<i64> {
        self.nanos().try_into().ok()
    }

    pub fn checked_add_signed(self, duration: Duration) -> Option<Self> {
        let NaiveDateTime { date, time } = self.0;
        Self::at(i64::from(date.0).checked_add(duration.days)?, time)
    }

    pub fn date_naive(&self) -> NaiveDate {
        self.0.date
    }

    pub fn naive_utc(&self) -> NaiveDateTime {
        self.0
    }
}

pub trait Timelike {
    fn nanosecond(&self) -> u32;
    fn num_seconds_from_midnight(&self) -> u32;
}

impl Timelike for NaiveTime {
    fn nanosecond(&self) -> u32 {
        self.nanos
    }

    fn num_seconds_from_midnight(&self) -> u32 {
        self.secs
    }
}

impl Timelike for NaiveDateTime {
    fn nanosecond(&self) -> u32 {
        self.time.nanos
    }

    fn num_seconds_from_midnight(&self) -> u32 {
        self.time.secs
    }
}

impl<Tz> Timelike for DateTime<Tz> {
    fn nanosecond(&self) -> u32 {
        self.0.time.nanos
    }

    fn num_seconds_from_midnight(&self) -> u32 {
        self.0.time.secs
    }
}

#[cfg(test)]
mod tests {
    use super::*;

    fn day(year: i32, month: u32, day: u32) -> Option<i32> {
        NaiveDate::from_ymd_opt(year, month, day).map(|date| date.0)
    }

    #[test]
    fn days_of_the_calendar() {
        assert_eq!(day(1970, 1, 1), Some(0));
        assert_eq!(day(1969, 12, 31), Some(-1));
        assert_eq!(day(2000, 2, 29), Some(11_016));
        assert_eq!(day(1900, 2, 29), None);
        assert_eq!(day(2024, 13, 1), None);
        assert_eq!(day(262_143, 1, 1), None);
    }

    #[test]
    fn times_before_and_after_the_epoch() {
        let before = DateTime::from_timestamp_micros(-1).unwrap();
        assert_eq!(before.date_naive(), NaiveDate(-1));
        assert_eq!(before.num_seconds_from_midnight(), 86_399);
        assert_eq!(before.nanosecond(), 999_999_000);
        assert_eq!(before.timestamp_micros(), -1);
        assert_eq!(
            DateTime::from_timestamp_nanos(i64::MIN).timestamp_nanos_opt(),
            Some(i64::MIN)
        );
        assert_eq!(DateTime::from_timestamp_micros(i64::MAX), None);
    }

    #[test]
    fn days_out_of_range() {
        let add = |days| DateTime::UNIX_EPOCH.checked_add_signed(Duration::days(days));
        assert!(add(MAX_DAY).is_some() && add(MAX_DAY + 1).is_none());
        assert!(add(MIN_DAY).is_some() && add(MIN_DAY - 1).is_none());
        assert!(add(i64::MAX).is_none());
    }
}
