//! The calendar as a list of days, counted one by one: a date is looked up in it. After 400 years the
//! calendar repeats, and so does the list.

use std::iter::successors;
use std::sync::LazyLock;

const BAD_DATE: u8 = 4;
const OUT_OF_RANGE: u8 = 7;

const LAST_YEAR: u64 = 9999;
const LISTED_YEARS: u64 = 400;

/// Every day of the first 400 years, in order.
static DAYS: LazyLock<Vec<Day>> = LazyLock::new(|| {
    successors(Some(Day::FIRST), |day| Some(day.next()))
        .take_while(|day| u64::from(day.year) <= LISTED_YEARS)
        .collect()
});

/// The place in the list of the first day of each month, in order, and the list's end.
static MONTHS: LazyLock<Vec<u64>> = LazyLock::new(|| {
    let days = (0..).zip(&*DAYS);
    let firsts = days.filter_map(|(place, day)| (day.day == 1).then_some(place));
    firsts.chain([DAYS.len() as u64]).collect()
});

/// The days from 0001-01-01 to 1958-01-01, whose day number is 0.
static EPOCH: LazyLock<u64> = LazyLock::new(|| since_first(1958, 1, 1, 1).expect("1958 is a year"));

#[derive(Clone, Copy)]
struct Day {
    year: u16,
    month: u8,
    day: u8,
    day_of_year: u16,
}

impl Day {
    const FIRST: Day = Day {
        year: 1,
        month: 1,
        day: 1,
        day_of_year: 1,
    };

    fn next(mut self) -> Day {
        if (self.month, self.day) == (12, 31) {
            let year = self.year + 1;
            return Day { year, ..Day::FIRST };
        }
        self.day_of_year += 1;
        self.day += 1;
        if self.day > month_length(self.year, self.month) {
            self.month += 1;
            self.day = 1;
        }
        self
    }

    fn date(&self) -> (u64, u64, u64) {
        (self.year.into(), self.month.into(), self.day.into())
    }

    fn ordinal(&self) -> (u64, u64) {
        (self.year.into(), self.day_of_year.into())
    }
}

/// The day number of a date.
pub fn day_of_date(year: u64, month: u64, day: u64) -> Result<i64, u8> {
    if (1..=12).contains(&month) {
        number_of(year, month, 1, day)
    } else {
        Err(BAD_DATE)
    }
}

/// The date of a day number.
pub fn date_of_day(number: i64) -> Result<(u64, u64, u64), u8> {
    let (years, day) = numbered(number)?;
    let (year, month, day) = day.date();
    Ok((years + year, month, day))
}

/// The day number of a day of a year.
pub fn day_of_ordinal(year: u64, day: u64) -> Result<i64, u8> {
    number_of(year, 1, 12, day)
}

/// The year and day of the year of a day number.
pub fn ordinal_of_day(number: i64) -> Result<(u64, u64), u8> {
    let (years, day) = numbered(number)?;
    let (year, day) = day.ordinal();
    Ok((years + year, day))
}

fn number_of(year: u64, month: u64, months: u64, day: u64) -> Result<i64, u8> {
    let since_first = since_first(year, month, months, day).ok_or(BAD_DATE)?;
    Ok(since_first as i64 - *EPOCH as i64)
}

/// The days from 0001-01-01 to a day that is counted from the start of a month, when it is in that month or
/// as many months as said.
fn since_first(year: u64, month: u64, months: u64, day: u64) -> Option<u64> {
    if !(1..=LAST_YEAR).contains(&year) {
        return None;
    }
    let rounds = (year - 1) / LISTED_YEARS;
    let first = (year - 1) % LISTED_YEARS * 12 + month - 1;
    let (start, end) = (MONTHS[first as usize], MONTHS[(first + months) as usize]);
    let good = (1..=end - start).contains(&day);
    good.then(|| rounds * DAYS.len() as u64 + start + day - 1)
}

/// A listed day, and how many years to add to its own.
fn numbered(number: i64) -> Result<(u64, &'static Day), u8> {
    let since_first = i128::from(number) + i128::from(*EPOCH);
    let since_first = usize::try_from(since_first).map_err(|_| OUT_OF_RANGE)?;
    let years = (since_first / DAYS.len()) as u64 * LISTED_YEARS;
    let day = &DAYS[since_first % DAYS.len()];
    if years + u64::from(day.year) <= LAST_YEAR {
        Ok((years, day))
    } else {
        Err(OUT_OF_RANGE)
    }
}

fn month_length(year: u16, month: u8) -> u8 {
    match month {
        4 | 6 | 9 | 11 => 30,
        2 if is_leap(year) => 29,
        2 => 28,
        _ => 31,
    }
}

/// A century is judged by its hundreds, as any other year is by itself.
fn is_leap(year: u16) -> bool {
    let judged = if year % 100 == 0 { year / 100 } else { year };
    judged % 4 == 0
}
