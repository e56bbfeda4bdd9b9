//! UTC readings and TAI seconds.

use crate::raw;
use crate::refusal::{answer, Refusal};

/// The table of leap seconds covers the TAI seconds from this one on: 1972-01-01T00:00:00 UTC.
pub const COVER_START: i64 = 441_763_210;

/// The table of leap seconds covers the TAI seconds before this one: the first after 2025-12-31 UTC.
pub const COVER_END: i64 = 2_145_916_837;

/// A UTC reading: a day, a second of it, and what TAI minus UTC is then.
///
/// Its TAI second is always `day * 86_400 + second + offset`. Readings are in the order of time.
#[derive(Clone, Copy, PartialEq, Eq, PartialOrd, Ord, Debug, Hash)]
pub struct Utc {
    /// The number of the UTC day, from 5113 (1972-01-01) to 24836 (2025-12-31).
    pub day: i64,
    /// The second of that day: 0 to 86,399, and 86,400 at 23:59:60.
    pub second: u64,
    /// TAI minus UTC on that day, in seconds. A leap second still has the offset of the day that it ends.
    pub offset: i64,
}

/// The UTC reading of a TAI second, counted from 1958-01-01T00:00:00 TAI as in a [`Record`](crate::Record).
///
/// Each covered TAI second is exactly one reading, and [`second_of_utc`] of that gives the second: 23:59:60
/// is a second of its own day, and the next midnight is one second later.
///
/// Covered are 441,763,210 (1972-01-01T00:00:00 UTC) to 2,145,916,836 (2025-12-31T23:59:59 UTC). Any other
/// second is refused with [`Refusal::Uncovered`], however far outside it is.
///
/// ```
/// use honigzange::{utc_of_second, Refusal, Utc, COVER_END, COVER_START};
///
/// // 2016-12-31T23:59:60, and 2017-01-01T00:00:00 after it.
/// let leap = Utc { day: 21_549, second: 86_400, offset: 36 };
/// let midnight = Utc { day: 21_550, second: 0, offset: 37 };
/// assert_eq!(utc_of_second(1_861_920_036), Ok(leap));
/// assert_eq!(utc_of_second(1_861_920_037), Ok(midnight));
///
/// let (first, last) = (utc_of_second(COVER_START)?, utc_of_second(COVER_END - 1)?);
/// assert_eq!((first.day, first.second), (5_113, 0));
/// assert_eq!((last.day, last.second), (24_836, 86_399));
/// assert_eq!(utc_of_second(COVER_START - 1), Err(Refusal::Uncovered));
/// assert_eq!(utc_of_second(COVER_END), Err(Refusal::Uncovered));
/// # Ok::<(), Refusal>(())
/// ```
pub fn utc_of_second(sec: i64) -> Result<Utc, Refusal> {
    let mut utc = Utc {
        day: 0,
        second: 0,
        offset: 0,
    };
    let number = raw::utc_of_second(sec, &mut utc.day, &mut utc.second, &mut utc.offset);
    answer(number, utc)
}

/// The TAI second of a UTC reading: `day * 86_400 + second` and TAI minus UTC on that day.
/// [`utc_of_second`] of it gives the reading.
///
/// Refused with the first of these that holds: [`Refusal::Field`] when the second is over 86,400;
/// [`Refusal::Uncovered`] when the day is not from 5113 (1972-01-01) to 24836 (2025-12-31);
/// [`Refusal::NoSuchSecond`] when the second is 86,400 (23:59:60) and the day does not end with a leap
/// second.
///
/// ```
/// use honigzange::{second_of_utc, Refusal};
///
/// assert_eq!(second_of_utc(21_549, 86_400), Ok(1_861_920_036));
/// assert_eq!(second_of_utc(21_550, 0), Ok(1_861_920_037));
/// assert_eq!(second_of_utc(21_550, 86_400), Err(Refusal::NoSuchSecond));
/// assert_eq!(second_of_utc(24_837, 86_400), Err(Refusal::Uncovered));
/// assert_eq!(second_of_utc(24_837, 86_401), Err(Refusal::Field));
/// ```
pub fn second_of_utc(day: i64, second: u64) -> Result<i64, Refusal> {
    let mut sec = 0;
    let number = raw::second_of_utc(day, second, &mut sec);
    answer(number, sec)
}
