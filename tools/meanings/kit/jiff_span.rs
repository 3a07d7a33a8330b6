//! What the crates use of jiff_span, as plain Rust.
pub mod date {
    use jiff_core::civil::{Date, Error};
    pub fn add_months(date: Date, months: i32) -> Result<Date, Error> {
        let all = i32::from(date.year) * 12 + i32::from(date.month) - 1 + months;
        let (year, month) = (i16::try_from(all.div_euclid(12)).map_err(|_| Error)?, all.rem_euclid(12) as i8 + 1);
        // the day, or the month's last one
        (28..=date.day() as i8).rev().chain([date.day()]).find_map(|day| Date::new(year, month, day).ok()).ok_or(Error)
    }
}
