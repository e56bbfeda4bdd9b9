//! CDS: the time of day as one count of the last field's unit.

use crate::octets::{number, octets};
use crate::{leap, scale};

const BAD_FIELD: u8 = 4;
const TARGET: u8 = 7;

const TICKS: i128 = scale::TICKS as i128;
const MILLISECOND_OCTETS: usize = 4;
const LAST_MILLISECOND: i128 = 86_400_999;

/// All ticks of the moment that a T-field shows.
pub fn read(t: &[u8], day_octets: usize, epoch: i64) -> Result<i128, u8> {
    let (day, time) = t.split_at(day_octets);
    let (millisecond, remainder) = time.split_at(MILLISECOND_OCTETS);
    let parts = parts_of_millisecond(remainder.len());
    let (millisecond, remainder) = (number(millisecond), number(remainder));
    if millisecond > LAST_MILLISECOND || remainder >= parts {
        return Err(BAD_FIELD);
    }
    let into_day = (millisecond * parts + remainder) * (TICKS / 1_000 / parts);
    let day = i128::from(epoch) + number(day);
    let second = leap::second_of_utc(day as i64, (into_day / TICKS) as u64)?;
    Ok(scale::total(second, 0) + into_day % TICKS)
}

/// The T-field of a moment.
pub fn write(
    total: i128,
    day_octets: usize,
    remainder_octets: usize,
    epoch: i64,
) -> Result<Vec<u8>, u8> {
    let (sec, ticks) = scale::parts(total);
    let (day, second, _) = leap::utc_of_second(sec as i64)?;
    let day = octets(i128::from(day) - i128::from(epoch), day_octets).ok_or(TARGET)?;
    let parts = parts_of_millisecond(remainder_octets);
    let into_day = i128::from(second) * TICKS + i128::from(ticks);
    let count = into_day / (TICKS / 1_000 / parts);
    let millisecond = octets(count / parts, MILLISECOND_OCTETS);
    let remainder = octets(count % parts, remainder_octets);
    Ok([
        day,
        millisecond.expect("32 bits hold a millisecond of the day"),
        remainder.expect("its octets hold a remainder"),
    ]
    .concat())
}

/// How many units of the remainder a millisecond has.
fn parts_of_millisecond(remainder_octets: usize) -> i128 {
    match remainder_octets {
        2 => 1_000,
        4 => 1_000_000_000,
        _ => 1,
    }
}
