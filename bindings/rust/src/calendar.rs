//! Dates, days of the year and day numbers.

use crate::raw;
use crate::refusal::{answer, Refusal};

/// The first day number of the calendar: 0001-01-01.
pub const FIRST_DAY: i64 = -714_779;

/// The last day number of the calendar: 9999-12-31.
pub const LAST_DAY: i64 = 2_937_279;

/// A day by year, month and day of the month, in the Gregorian calendar.
///
/// Valid years are from 1 to 9999, months from 1 to 12, and days from 1 to the length of that month in that
/// year. A date is plain data and may be invalid: [`day_of_date`] refuses it then. Dates are in the order
/// of time.
#[derive(Clone, Copy, PartialEq, Eq, PartialOrd, Ord, Debug, Hash)]
pub struct Date {
    /// 1 to 9999.
    pub year: u64,
    /// 1 to 12.
    pub month: u64,
    /// 1 to 31, or less in a shorter month.
    pub day: u64,
}

/// A day by year and day of the year, in the Gregorian calendar.
///
/// Valid years are from 1 to 9999, and days from 1 (1 January) to 365, or to 366 in a leap year. An ordinal
/// is plain data and may be invalid: [`day_of_ordinal`] refuses it then. Ordinals are in the order of time.
#[derive(Clone, Copy, PartialEq, Eq, PartialOrd, Ord, Debug, Hash)]
pub struct Ordinal {
    /// 1 to 9999.
    pub year: u64,
    /// 1 to 365, or to 366 in a leap year.
    pub day: u64,
}

/// The day number of a date: 0 for 1958-01-01, negative before it. [`date_of_day`] of it gives the date.
///
/// Refused with [`Refusal::Field`] when there is no such date.
///
/// ```
/// use honigzange::{day_of_date, Date, Refusal, FIRST_DAY, LAST_DAY};
///
/// assert_eq!(day_of_date(Date { year: 1958, month: 1, day: 1 }), Ok(0));
/// assert_eq!(day_of_date(Date { year: 2016, month: 12, day: 31 }), Ok(21_549));
/// assert_eq!(day_of_date(Date { year: 1, month: 1, day: 1 }), Ok(FIRST_DAY));
/// assert_eq!(day_of_date(Date { year: 9999, month: 12, day: 31 }), Ok(LAST_DAY));
/// assert_eq!(day_of_date(Date { year: 1900, month: 2, day: 29 }), Err(Refusal::Field));
/// ```
pub fn day_of_date(date: Date) -> Result<i64, Refusal> {
    let mut day = 0;
    let number = raw::day_of_date(date.year, date.month, date.day, &mut day);
    answer(number, day)
}

/// The date of a day number. [`day_of_date`] of it gives the number.
///
/// Refused with [`Refusal::Range`] when the number is not from [`FIRST_DAY`] to [`LAST_DAY`].
///
/// ```
/// use honigzange::{date_of_day, Date, Refusal, LAST_DAY};
///
/// assert_eq!(date_of_day(-1), Ok(Date { year: 1957, month: 12, day: 31 }));
/// assert_eq!(date_of_day(LAST_DAY + 1), Err(Refusal::Range));
/// ```
pub fn date_of_day(day: i64) -> Result<Date, Refusal> {
    let mut date = Date {
        year: 0,
        month: 0,
        day: 0,
    };
    let number = raw::date_of_day(day, &mut date.year, &mut date.month, &mut date.day);
    answer(number, date)
}

/// The day number of a day of a year: 0 for day 1 of 1958. [`ordinal_of_day`] of it gives the ordinal.
///
/// Refused with [`Refusal::Field`] when there is no such day.
///
/// ```
/// use honigzange::{day_of_ordinal, Ordinal, Refusal};
///
/// assert_eq!(day_of_ordinal(Ordinal { year: 2016, day: 366 }), Ok(21_549));
/// assert_eq!(day_of_ordinal(Ordinal { year: 2023, day: 366 }), Err(Refusal::Field));
/// ```
pub fn day_of_ordinal(ordinal: Ordinal) -> Result<i64, Refusal> {
    let mut day = 0;
    let number = raw::day_of_ordinal(ordinal.year, ordinal.day, &mut day);
    answer(number, day)
}

/// The year and day of the year of a day number. [`day_of_ordinal`] of them gives the number.
///
/// Refused with [`Refusal::Range`] when the number is not from [`FIRST_DAY`] to [`LAST_DAY`].
///
/// ```
/// use honigzange::{ordinal_of_day, Ordinal, Refusal, FIRST_DAY};
///
/// assert_eq!(ordinal_of_day(21_549), Ok(Ordinal { year: 2016, day: 366 }));
/// assert_eq!(ordinal_of_day(FIRST_DAY - 1), Err(Refusal::Range));
/// ```
pub fn ordinal_of_day(day: i64) -> Result<Ordinal, Refusal> {
    let mut ordinal = Ordinal { year: 0, day: 0 };
    let number = raw::ordinal_of_day(day, &mut ordinal.year, &mut ordinal.day);
    answer(number, ordinal)
}
