//! What the crates use of jiff_core, as plain Rust.
pub mod civil {
    #[derive(Clone, Copy, Debug, PartialEq, Eq)]
    pub struct Error;
    #[derive(Clone, Copy, Debug, PartialEq, Eq, PartialOrd, Ord, Hash)]
    pub struct Date { pub year: i16, pub month: u8, pub day: u8 }
    #[derive(Clone, Copy, Debug, PartialEq, Eq, PartialOrd, Ord, Hash)]
    pub struct Time { pub hour: u8, pub minute: u8, pub second: u8, pub subsec_nanosecond: u32 }
    #[derive(Clone, Copy, Debug, PartialEq, Eq, PartialOrd, Ord, Hash)]
    pub struct DateTime { pub date: Date, pub time: Time }
    pub const DAY: i128 = 86_400_000_000_000;
    const FIRST: i64 = -4_371_587;
    fn is_leap(year: i64) -> bool { year % 4 == 0 && (year % 100 != 0 || year % 400 == 0) }
    fn month_days(year: i64, month: i64) -> i64 {
        match month { 2 => 28 + i64::from(is_leap(year)), 4 | 6 | 9 | 11 => 30, _ => 31 }
    }
    // the days before a year, from 1970-01-01
    fn before(year: i64) -> i64 {
        let past = year - 1;
        365 * year + past.div_euclid(4) - past.div_euclid(100) + past.div_euclid(400) - 719_162 - 365
    }
    impl Date {
        pub const MIN: Date = Date { year: -9999, month: 1, day: 1 };
        pub fn new(year: i16, month: i8, day: i8) -> Result<Date, Error> {
            let is_day = (1..=12).contains(&month) && day >= 1 && i64::from(day) <= month_days(year.into(), month.into());
            if !(-9999..=9999).contains(&year) || !is_day { return Err(Error); }
            Ok(Date { year, month: month as u8, day: day as u8 })
        }
        pub fn to_plain(self) -> Date { self }
        pub fn from_plain(plain: Date) -> Date { plain }
        pub fn year(self) -> i16 { self.year }
        pub fn month(self) -> i8 { self.month as i8 }
        pub fn day(self) -> i8 { self.day as i8 }
        pub fn to_unix_epoch_day(self) -> i32 {
            let months: i64 = (1..i64::from(self.month)).map(|month| month_days(self.year.into(), month)).sum();
            (before(self.year.into()) + months + i64::from(self.day) - 1) as i32
        }
        pub fn from_unix_epoch_day(day: i64) -> Result<Date, Error> {
            if !(FIRST..=2_932_896).contains(&day) { return Err(Error); }
            let mut year = day.div_euclid(365) + 1970 + 30;
            while before(year) > day { year -= 1; }
            let (mut month, mut left) = (1, day - before(year));
            while left >= month_days(year, month) { left -= month_days(year, month); month += 1; }
            Ok(Date { year: year as i16, month: month as u8, day: left as u8 + 1 })
        }
        pub fn from_days_since_min(days: u32) -> Date { Date::from_unix_epoch_day(i64::from(days) + FIRST).unwrap() }
        pub fn in_leap_year(self) -> bool { is_leap(self.year.into()) }
        pub fn from_ordinal(year: i16, ordinal: i16) -> Result<Date, Error> {
            let first = Date::new(year, 1, 1)?;
            if ordinal < 1 || i64::from(ordinal) > 365 + i64::from(first.in_leap_year()) { return Err(Error); }
            Date::from_unix_epoch_day(i64::from(first.to_unix_epoch_day()) + i64::from(ordinal) - 1)
        }
        pub fn with(self) -> With { With(self, 1) }
        pub fn from_iso_week_date(week: ISOWeekDate) -> Date { week.date }
    }
    pub struct With(Date, i16);
    impl With {
        pub fn day_of_year(self, ordinal: i16) -> With { With(self.0, ordinal) }
        pub fn build(self) -> Result<Date, Error> { Date::from_ordinal(self.0.year, self.1) }
    }
    impl Time {
        pub fn new(hour: i8, minute: i8, second: i8, nanos: i32) -> Result<Time, Error> {
            let is_time = (0..24).contains(&hour) && (0..60).contains(&minute) && (0..60).contains(&second);
            if !is_time || !(0..1_000_000_000).contains(&nanos) { return Err(Error); }
            Ok(Time { hour: hour as u8, minute: minute as u8, second: second as u8, subsec_nanosecond: nanos as u32 })
        }
        pub fn to_plain(self) -> Time { self }
        pub fn hour(self) -> i8 { self.hour as i8 }
        pub fn minute(self) -> i8 { self.minute as i8 }
        pub fn second(self) -> i8 { self.second as i8 }
        pub fn subsec_nanosecond(self) -> i32 { self.subsec_nanosecond as i32 }
        pub fn midnight() -> Time { Time { hour: 0, minute: 0, second: 0, subsec_nanosecond: 0 } }
    }
    impl DateTime {
        pub const MIN: DateTime = DateTime { date: Date::MIN, time: Time { hour: 0, minute: 0, second: 0, subsec_nanosecond: 0 } };
        pub fn new(year: i16, month: i8, day: i8, hour: i8, minute: i8, second: i8, nanos: i32) -> Result<DateTime, Error> {
            Ok(DateTime { date: Date::new(year, month, day)?, time: Time::new(hour, minute, second, nanos)? })
        }
        pub fn from_parts(date: Date, time: Time) -> DateTime { DateTime { date, time } }
        pub fn date(self) -> Date { self.date }
        pub fn time(self) -> Time { self.time }
        pub fn year(self) -> i16 { self.date.year }
        pub fn month(self) -> i8 { self.date.month() }
        pub fn day(self) -> i8 { self.date.day() }
        pub fn hour(self) -> i8 { self.time.hour() }
        pub fn minute(self) -> i8 { self.time.minute() }
        pub fn second(self) -> i8 { self.time.second() }
        pub fn subsec_nanosecond(self) -> i32 { self.time.subsec_nanosecond() }
        pub fn to_plain(self) -> DateTime { self }
        pub fn from_plain(plain: DateTime) -> DateTime { plain }
        pub fn to_second(self) -> i64 {
            let time = (i64::from(self.time.hour) * 60 + i64::from(self.time.minute)) * 60 + i64::from(self.time.second);
            i64::from(self.date.to_unix_epoch_day()) * 86_400 + time
        }
        pub fn to_nanosecond(self) -> i128 { i128::from(self.to_second()) * 1_000_000_000 + i128::from(self.time.subsec_nanosecond) }
        pub fn from_nanosecond(nanos: i128) -> Result<DateTime, Error> {
            let day = i64::try_from(nanos.div_euclid(DAY)).map_err(|_| Error)?;
            let left = nanos.rem_euclid(DAY) as u64;
            let (second, subsec_nanosecond) = (left / 1_000_000_000, (left % 1_000_000_000) as u32);
            let (hour, minute, second) = ((second / 3600) as u8, (second / 60 % 60) as u8, (second % 60) as u8);
            let time = Time { hour, minute, second, subsec_nanosecond };
            Ok(DateTime { date: Date::from_unix_epoch_day(day)?, time })
        }
        pub fn checked_add_nanos(self, nanos: i128) -> Result<DateTime, Error> {
            DateTime::from_nanosecond(self.to_nanosecond().checked_add(nanos).ok_or(Error)?)
        }
    }
    #[derive(Clone, Copy, Debug, PartialEq, Eq)]
    pub struct Weekday(i8);
    impl Weekday {
        pub fn from_monday_one_offset(day: i8) -> Result<Weekday, Error> {
            if (1..=7).contains(&day) { Ok(Weekday(day)) } else { Err(Error) }
        }
    }
    #[derive(Clone, Copy, Debug, PartialEq, Eq)]
    pub struct ISOWeekDate { date: Date }
    impl ISOWeekDate {
        pub fn new(year: i16, week: i8, day: Weekday) -> Result<ISOWeekDate, Error> {
            if !(-9999..=9999).contains(&year) || week < 1 { return Err(Error); }
            let monday = |year: i64| { let fourth = before(year) + 3; fourth - (fourth + 3).rem_euclid(7) };
            let at = monday(year.into()) + 7 * (i64::from(week) - 1);
            if at >= monday(i64::from(year) + 1) { return Err(Error); }
            Ok(ISOWeekDate { date: Date::from_unix_epoch_day(at + i64::from(day.0) - 1)? })
        }
        pub fn date(self) -> Date { self.date }
    }
}
