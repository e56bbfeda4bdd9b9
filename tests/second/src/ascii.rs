//! ASCII A and B: a text as runs of digits and the marks between them.

use crate::{calendar, leap, scale};

const EMPTY: u8 = 1;
const UNSUPPORTED: u8 = 3;
const BAD_FIELD: u8 = 4;
const ROOM: u8 = 8;

const MOST_DIGITS: usize = 12;

/// How many bytes the longest code has.
pub const LONGEST: usize = 33;

const TICKS: u128 = scale::TICKS as u128;

/// How a code is written.
#[derive(Clone, Copy)]
pub struct Setting {
    pub by_day_of_year: bool,
    pub digits: u8,
    pub z: bool,
}

pub const DEFAULT: Setting = Setting {
    by_day_of_year: false,
    digits: 3,
    z: true,
};

/// The record that a text shows.
pub fn read(text: &[u8]) -> Result<(i64, u64), u8> {
    if text.is_empty() {
        return Err(EMPTY);
    }
    let (day, second, ticks) = Unread(text).code().ok_or(BAD_FIELD)?;
    Ok((leap::second_of_utc(day, second)?, ticks))
}

/// The text of a record.
pub fn write(sec: i64, ticks: u64, setting: Setting, room: usize) -> Result<Text, u8> {
    scale::record(sec, ticks)?;
    let digits = usize::from(setting.digits);
    if digits > MOST_DIGITS {
        return Err(UNSUPPORTED);
    }
    let (day, second, _) = leap::utc_of_second(sec)?;
    let mut text = Text::EMPTY;
    text.date(day, setting.by_day_of_year)?;
    text.time_of_day(second);
    if digits > 0 {
        let fraction = u128::from(ticks) * power_of_ten(digits) / TICKS;
        text.mark(b'.');
        text.number(fraction as u64, digits);
    }
    if setting.z {
        text.mark(b'Z');
    }
    if text.length <= room {
        Ok(text)
    } else {
        Err(ROOM)
    }
}

/// What is left to read of a text. Each part answers what it shows and takes it off the front.
struct Unread<'a>(&'a [u8]);

/// Digits that stand together, as a number, and how many they are.
struct Run {
    number: u64,
    length: usize,
}

impl Unread<'_> {
    /// The day, second of the day and ticks of a good code.
    fn code(mut self) -> Option<(i64, u64, u64)> {
        let day = self.date()?;
        self.mark(b'T')?;
        let second = self.time_of_day()?;
        let ticks = match self.mark(b'.') {
            Some(()) => self.fraction()?,
            None => 0,
        };
        let _optional = self.mark(b'Z');
        self.0.is_empty().then_some((day, second, ticks))
    }

    fn date(&mut self) -> Option<i64> {
        let year = self.number(4)?;
        self.mark(b'-')?;
        let Run { number, length } = self.run();
        let day = match length {
            2 => {
                self.mark(b'-')?;
                calendar::day_of_date(year, number, self.number(2)?)
            }
            3 => calendar::day_of_ordinal(year, number),
            _ => return None,
        };
        day.ok()
    }

    fn time_of_day(&mut self) -> Option<u64> {
        let hour = self.number(2)?;
        self.mark(b':')?;
        let minute = self.number(2)?;
        self.mark(b':')?;
        let second = self.number(2)?;
        let good = hour < 24 && minute < 60 && second < 60;
        let inserted = (hour, minute, second) == (23, 59, 60);
        (good || inserted).then_some((hour * 60 + minute) * 60 + second)
    }

    fn fraction(&mut self) -> Option<u64> {
        let Run { number, length } = self.run();
        let good = (1..=MOST_DIGITS).contains(&length);
        good.then(|| (u128::from(number) * TICKS / power_of_ten(length)) as u64)
    }

    fn number(&mut self, digits: usize) -> Option<u64> {
        let Run { number, length } = self.run();
        (length == digits).then_some(number)
    }

    /// A run longer than any field ends early: nothing good begins with a digit after it.
    fn run(&mut self) -> Run {
        let (mut number, mut length) = (0, 0);
        while let [digit @ b'0'..=b'9', rest @ ..] = self.0 {
            if length > MOST_DIGITS {
                break;
            }
            number = number * 10 + u64::from(digit - b'0');
            length += 1;
            self.0 = rest;
        }
        Run { number, length }
    }

    fn mark(&mut self, mark: u8) -> Option<()> {
        self.0 = self.0.strip_prefix(&[mark])?;
        Some(())
    }
}

/// A text, as far as it is written.
pub struct Text {
    bytes: [u8; LONGEST],
    length: usize,
}

impl Text {
    const EMPTY: Text = Text {
        bytes: [0; LONGEST],
        length: 0,
    };

    pub fn as_bytes(&self) -> &[u8] {
        &self.bytes[..self.length]
    }

    fn date(&mut self, number: i64, by_day_of_year: bool) -> Result<(), u8> {
        if by_day_of_year {
            let (year, day) = calendar::ordinal_of_day(number)?;
            self.number(year, 4);
            self.mark(b'-');
            self.number(day, 3);
        } else {
            let (year, month, day) = calendar::date_of_day(number)?;
            self.number(year, 4);
            self.mark(b'-');
            self.number(month, 2);
            self.mark(b'-');
            self.number(day, 2);
        }
        Ok(())
    }

    /// An inserted second belongs to the last minute.
    fn time_of_day(&mut self, second: u64) {
        let minute = (second / 60).min(24 * 60 - 1);
        self.mark(b'T');
        self.number(minute / 60, 2);
        self.mark(b':');
        self.number(minute % 60, 2);
        self.mark(b':');
        self.number(second - minute * 60, 2);
    }

    fn number(&mut self, mut number: u64, digits: usize) {
        let end = self.length + digits;
        for byte in self.bytes[self.length..end].iter_mut().rev() {
            *byte = b'0' + (number % 10) as u8;
            number /= 10;
        }
        self.length = end;
    }

    fn mark(&mut self, mark: u8) {
        self.bytes[self.length] = mark;
        self.length += 1;
    }
}

fn power_of_ten(digits: usize) -> u128 {
    10u128.pow(digits as u32)
}
