//! UTC as a list of all covered days, each with the TAI second at which it begins: the lengths of the days
//! before it, added one by one.

use crate::calendar;
use std::ops::Range;
use std::sync::LazyLock;

const BAD_SECOND: u8 = 4;
const UNCOVERED: u8 = 5;
const NO_SUCH_SECOND: u8 = 6;

/// UTC dates at whose end a second was inserted (IERS Bulletin C).
const LONG_DAYS: [(u64, u64, u64); 27] = [
    (1972, 6, 30),
    (1972, 12, 31),
    (1973, 12, 31),
    (1974, 12, 31),
    (1975, 12, 31),
    (1976, 12, 31),
    (1977, 12, 31),
    (1978, 12, 31),
    (1979, 12, 31),
    (1981, 6, 30),
    (1982, 6, 30),
    (1983, 6, 30),
    (1985, 6, 30),
    (1987, 12, 31),
    (1989, 12, 31),
    (1990, 12, 31),
    (1992, 6, 30),
    (1993, 6, 30),
    (1994, 6, 30),
    (1995, 12, 31),
    (1997, 6, 30),
    (1998, 12, 31),
    (2005, 12, 31),
    (2008, 12, 31),
    (2012, 6, 30),
    (2015, 6, 30),
    (2016, 12, 31),
];

const FIRST_DATE: (u64, u64, u64) = (1972, 1, 1);
const LAST_DATE: (u64, u64, u64) = (2025, 12, 31);

/// TAI minus UTC on the first date.
const FIRST_OFFSET: i64 = 10;

/// The covered days, in order.
static DAYS: LazyLock<Vec<Day>> = LazyLock::new(covered_days);

struct Day {
    number: i64,
    begins: i64,
    length: i64,
    offset: i64,
}

/// The covered TAI seconds.
pub fn cover() -> Range<i64> {
    let (first, last) = (&DAYS[0], &DAYS[DAYS.len() - 1]);
    first.begins..last.begins + last.length
}

/// The numbers of the covered days.
pub fn days() -> Range<i64> {
    let first = DAYS[0].number;
    first..first + DAYS.len() as i64
}

/// The day, second of day and TAI minus UTC of a TAI second.
pub fn utc_of_second(sec: i64) -> Result<(i64, u64, i64), u8> {
    let days = &*DAYS;
    // To count days of 86,400 seconds alone finds the day, or the one after it.
    let count = sec.saturating_sub(days[0].begins) / 86_400;
    let found = count.clamp(0, days.len() as i64 - 1) as usize;
    let late = usize::from(sec < days[found].begins);
    let day = &days[found.saturating_sub(late)];
    let second_of_day = sec.saturating_sub(day.begins);
    if (0..day.length).contains(&second_of_day) {
        Ok((day.number, second_of_day as u64, day.offset))
    } else {
        Err(UNCOVERED)
    }
}

/// The TAI second of a second of a day.
pub fn second_of_utc(day: i64, second_of_day: u64) -> Result<i64, u8> {
    if second_of_day > 86_400 {
        return Err(BAD_SECOND);
    }
    let days = &*DAYS;
    let place = usize::try_from(i128::from(day) - i128::from(days[0].number));
    let day = place.ok().and_then(|place| days.get(place));
    let day = day.ok_or(UNCOVERED)?;
    if (second_of_day as i64) < day.length {
        Ok(day.begins + second_of_day as i64)
    } else {
        Err(NO_SUCH_SECOND)
    }
}

fn covered_days() -> Vec<Day> {
    let long_days = LONG_DAYS.map(number);
    let mut begins = 86_400 * number(FIRST_DATE) + FIRST_OFFSET;
    let mut days = Vec::new();
    for number in number(FIRST_DATE)..=number(LAST_DATE) {
        let inserted = long_days.iter().filter(|&&long| long < number).count();
        let length = 86_400 + i64::from(long_days.contains(&number));
        let offset = FIRST_OFFSET + inserted as i64;
        days.push(Day {
            number,
            begins,
            length,
            offset,
        });
        begins += length;
    }
    days
}

fn number((year, month, day): (u64, u64, u64)) -> i64 {
    calendar::day_of_date(year, month, day).expect("a written date is a date")
}
