//! CCS: the T-field as a text of decimal digits, which is its hexadecimal text.

use crate::{calendar, leap, scale};

const BAD_FIELD: u8 = 4;

/// Fraction digits of a picosecond, and its ticks.
const DIGITS: usize = 12;
const PICOSECOND: u64 = scale::TICKS / 10u64.pow(DIGITS as u32);

/// All ticks of the moment that a T-field shows.
pub fn read(t: &[u8], by_day_of_year: bool) -> Result<i128, u8> {
    let text = t.iter().map(|octet| format!("{octet:02x}"));
    let text = text.collect::<String>();
    if !text.chars().all(|digit| digit.is_ascii_digit()) {
        return Err(BAD_FIELD);
    }
    let year = decimal(&text[..4]);
    let day = if by_day_of_year {
        calendar::day_of_ordinal(year, decimal(&text[4..8]))?
    } else {
        calendar::day_of_date(year, decimal(&text[4..6]), decimal(&text[6..8]))?
    };
    let second = second_of_day(&text[8..14])?;
    let picoseconds = decimal(&format!("{:0<DIGITS$}", &text[14..]));
    let second = leap::second_of_utc(day, second)?;
    Ok(scale::total(second, picoseconds * PICOSECOND))
}

/// The T-field of a moment. To cut digits off is to take the fraction downward.
pub fn write(total: i128, by_day_of_year: bool, segments: usize) -> Result<Vec<u8>, u8> {
    let (sec, ticks) = scale::parts(total);
    let (number, second, _) = leap::utc_of_second(sec as i64)?;
    let date = if by_day_of_year {
        let (year, day) = calendar::ordinal_of_day(number)?;
        format!("{year:04}{day:04}")
    } else {
        let (year, month, day) = calendar::date_of_day(number)?;
        format!("{year:04}{month:02}{day:02}")
    };
    let fraction = format!("{:0DIGITS$}", ticks / PICOSECOND);
    let text = date + &time_of_day(second) + &fraction[..2 * segments];
    let octet = |place| u8::from_str_radix(&text[place..place + 2], 16);
    let octets = (0..text.len()).step_by(2).map(octet);
    Ok(octets.collect::<Result<_, _>>().expect("digits are digits"))
}

/// The second of the day that hhmmss shows.
fn second_of_day(text: &str) -> Result<u64, u8> {
    let [hour, minute, second] = [0, 2, 4].map(|place| decimal(&text[place..place + 2]));
    let good = hour < 24 && minute < 60 && second < 60;
    if good || text == "235960" {
        Ok((hour * 60 + minute) * 60 + second)
    } else {
        Err(BAD_FIELD)
    }
}

fn time_of_day(second: u64) -> String {
    if second == 86_400 {
        return "235960".to_string();
    }
    let (hour, minute) = (second / 3_600, second / 60 % 60);
    format!("{hour:02}{minute:02}{:02}", second % 60)
}

fn decimal(text: &str) -> u64 {
    text.parse().expect("digits are a number")
}
