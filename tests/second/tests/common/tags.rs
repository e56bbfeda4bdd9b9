//! ASCII tags: their shapes, and numbers to stand in them, good ones and bad ones.

use super::codes::{leaps, FIRST_DAY, FIRST_SECOND, LAST_DAY, LAST_SECOND};
use second::rng::Rng;
use second::{calendar, leap};

/// Calendars that end with their day, and those that do not.
const TO_DAY: [&str; 5] = ["YYYY-MM-DD", "-MM-DD", "--DD", "YYYY-DDD", "-DDD"];
const BEFORE_DAY: [&str; 3] = ["YYYY-MM", "-MM", "YYYY"];

/// Every shape of a tag.
pub fn shapes() -> Vec<String> {
    let mut shapes = times();
    let from_hour = times().into_iter().filter(|time| time.starts_with('h'));
    for time in from_hour {
        shapes.extend(TO_DAY.map(|calendar| format!("{calendar}T{time}")));
    }
    let with_z = shapes.iter().map(|shape| format!("{shape}Z"));
    shapes.extend(with_z.collect::<Vec<_>>());
    shapes.extend(TO_DAY.into_iter().chain(BEFORE_DAY).map(String::from));
    assert_eq!(shapes.len(), 2 * (15 + 14 + 13 + 12) + 2 * 5 * 15 + 8);
    shapes
}

/// The shapes of which the fraction, if there is one, is as short or as long as can be.
pub fn edge_shapes() -> Vec<String> {
    let mut shapes = shapes();
    shapes.retain(|shape| [0, 1, 12].contains(&shape.matches('d').count()));
    shapes
}

fn times() -> Vec<String> {
    let full = "hh:mm:ss.dddddddddddd";
    let mut times = Vec::new();
    for (kept, start) in [("", 0), ("", 2), (":", 5), ("::", 8)] {
        let ends = [2, 5, 8].into_iter().chain(10..=full.len());
        let ends = ends.filter(|&end| end > start + 1);
        times.extend(ends.map(|end| format!("{kept}{}", &full[start..end])));
    }
    times
}

/// What may stand in a tag.
#[derive(Clone, Copy)]
pub struct Numbers {
    pub year: u64,
    pub month: u64,
    pub day: u64,
    pub day_of_year: u64,
    pub hour: u64,
    pub minute: u64,
    pub second: u64,
}

impl Numbers {
    /// Those of a covered second.
    pub fn of(sec: i64) -> Numbers {
        let (number, second, _) = leap::utc_of_second(sec).expect("the second is covered");
        let (year, month, day) = calendar::date_of_day(number).expect("the day has a date");
        let (_, day_of_year) = calendar::ordinal_of_day(number).expect("the day has an ordinal");
        let minute = (second / 60).min(24 * 60 - 1);
        Numbers {
            year,
            month,
            day,
            day_of_year,
            hour: minute / 60,
            minute: minute % 60,
            second: second - minute * 60,
        }
    }

    /// One of them is at or next to an end of its range, or one that few dates have.
    pub fn edge(mut self, rng: &mut Rng) -> Numbers {
        match rng.below(8) {
            0 => self.year = rng.pick(&[0, 1, 1900, 1971, 1972, 2000, 2023, 2025, 2026, 9999]),
            1 => self.month = rng.pick(&[0, 1, 2, 4, 12, 13, 99]),
            2 => self.day = rng.pick(&[0, 1, 28, 29, 30, 31, 32, 99]),
            3 => self.day_of_year = rng.pick(&[0, 1, 59, 60, 365, 366, 367, 999]),
            4 => self.hour = rng.pick(&[0, 22, 23, 24, 99]),
            5 => self.minute = rng.pick(&[0, 58, 59, 60, 99]),
            6 => self.second = rng.pick(&[0, 58, 59, 60, 61, 99]),
            _ => (self.hour, self.minute, self.second) = (23, 59, 60),
        }
        self
    }
}

/// A tag of a shape with these numbers. The fraction is any digits, or all of them are 0 or 9.
pub fn fill(rng: &mut Rng, shape: &str, numbers: Numbers) -> Vec<u8> {
    let any = rng.below(4);
    let mut tag = Vec::new();
    for run in shape.as_bytes().chunk_by(|one, next| one == next) {
        let number = match run[0] {
            b'Y' => numbers.year,
            b'M' => numbers.month,
            b'D' if run.len() == 3 => numbers.day_of_year,
            b'D' => numbers.day,
            b'h' => numbers.hour,
            b'm' => numbers.minute,
            b's' => numbers.second,
            b'd' => {
                tag.extend(run.iter().map(|_| match any {
                    0 => b'0',
                    1 => b'9',
                    _ => b'0' + rng.below(10) as u8,
                }));
                continue;
            }
            _ => {
                tag.extend_from_slice(run);
                continue;
            }
        };
        tag.extend(format!("{number:0width$}", width = run.len()).bytes());
    }
    tag
}

/// Covered seconds, around places at which a rule changes more often than chance has it.
pub struct Seconds(Vec<(i64, i64)>);

impl Seconds {
    pub fn new() -> Seconds {
        Seconds(leaps())
    }

    pub fn any(&self, rng: &mut Rng) -> i64 {
        let leap = rng.pick(&self.0).0;
        let day = rng.between(FIRST_DAY, LAST_DAY);
        let midnight = leap::second_of_utc(day, 0).expect("the day is covered");
        let (_, _, day_of_month) = calendar::date_of_day(day).expect("the day has a date");
        let sec = match rng.below(8) {
            0 => FIRST_SECOND,
            1 => LAST_SECOND,
            2 | 3 => leap,
            4 => midnight,
            5 => midnight - 86_400 * (day_of_month as i64 - 1),
            _ => return rng.between(FIRST_SECOND, LAST_SECOND),
        };
        (sec + rng.between(-2, 2)).clamp(FIRST_SECOND, LAST_SECOND)
    }

    pub fn leap(&self, rng: &mut Rng) -> i64 {
        rng.pick(&self.0).0
    }
}
