//! ASCII texts: the shapes of a code, its dates and times, good ones and bad ones, and damage of many kinds.

use super::codes::{any_bytes, leaps, FIRST_DAY, FIRST_SECOND, LAST_DAY, LAST_SECOND};
use honigzange::{AsciiSetting, Record};
use second::calendar;
use second::rng::Rng;

/// What a damaged text holds most often.
const CHARACTERS: &[u8] = b"0123456789-:.TZtz +,/";

/// The settings of all good codes, which are their shapes too.
pub fn settings() -> Vec<AsciiSetting> {
    let mut all = Vec::new();
    for day_of_year in [false, true] {
        for digits in 0..=12 {
            for z in [false, true] {
                all.push(AsciiSetting {
                    day_of_year,
                    digits,
                    z,
                });
            }
        }
    }
    assert_eq!(all.len(), 52);
    all
}

/// How many bytes a code of this shape has.
pub fn length(setting: AsciiSetting) -> usize {
    let date = if setting.day_of_year { 8 } else { 10 };
    let fraction = match usize::from(setting.digits) {
        0 => 0,
        digits => 1 + digits,
    };
    date + 9 + fraction + usize::from(setting.z)
}

/// The ticks of a code's smallest step.
pub fn unit(digits: u8) -> u64 {
    Record::TICKS / 10u64.pow(digits.into())
}

/// A text of these parts in a shape. The fraction is any digits, or all of them are 0 or 9.
pub fn text(rng: &mut Rng, setting: AsciiSetting, date: &str, time: &str) -> Vec<u8> {
    let mut text = format!("{date}T{time}").into_bytes();
    if setting.digits > 0 {
        text.push(b'.');
    }
    let any = rng.below(4);
    text.extend((0..setting.digits).map(|_| match any {
        0 => b'0',
        1 => b'9',
        _ => b'0' + rng.below(10) as u8,
    }));
    if setting.z {
        text.push(b'Z');
    }
    text
}

/// The date of a day, in either form.
pub fn date(day_of_year: bool, day: i64) -> String {
    if day_of_year {
        let (year, day) = calendar::ordinal_of_day(day).expect("the day has an ordinal");
        format!("{year:04}-{day:03}")
    } else {
        let (year, month, day) = calendar::date_of_day(day).expect("the day has a date");
        format!("{year:04}-{month:02}-{day:02}")
    }
}

/// A time of day at which no rule changes.
pub fn plain_time(rng: &mut Rng) -> String {
    let (hour, minute, second) = (rng.below(24), rng.below(60), rng.below(60));
    format!("{hour:02}:{minute:02}:{second:02}")
}

/// Texts and moments, around the places at which a rule changes more often than chance has it.
pub struct Texts {
    leaps: Vec<(i64, i64)>,
    settings: Vec<AsciiSetting>,
}

impl Texts {
    pub fn new() -> Texts {
        Texts {
            leaps: leaps(),
            settings: settings(),
        }
    }

    pub fn setting(&self, rng: &mut Rng) -> AsciiSetting {
        rng.pick(&self.settings)
    }

    /// A text of right shape, with good fields more often than not.
    pub fn text(&self, rng: &mut Rng) -> Vec<u8> {
        let mut setting = self.setting(rng);
        if rng.once_in(50) {
            setting.digits = 13;
        }
        let date = self.date(rng, setting.day_of_year);
        let time = self.time(rng);
        text(rng, setting, &date, &time)
    }

    /// A code of a covered moment.
    pub fn good_text(&self, rng: &mut Rng, setting: AsciiSetting) -> Vec<u8> {
        let (leap, any) = (rng.pick(&self.leaps).1, rng.between(FIRST_DAY, LAST_DAY));
        if rng.once_in(4) {
            return text(rng, setting, &date(setting.day_of_year, leap), "23:59:60");
        }
        let time = plain_time(rng);
        text(rng, setting, &date(setting.day_of_year, any), &time)
    }

    fn date(&self, rng: &mut Rng, day_of_year: bool) -> String {
        let leap = rng.pick(&self.leaps).1;
        let end = rng.pick(&[FIRST_DAY, LAST_DAY]);
        let day = match rng.below(16) {
            0 | 1 => return edge_date(rng, day_of_year),
            2 => end + rng.between(-2, 2),
            3..=6 => leap + rng.between(0, 1),
            7 => rng.between(-714_779, 2_937_279),
            _ => rng.between(FIRST_DAY, LAST_DAY),
        };
        date(day_of_year, day)
    }

    fn time(&self, rng: &mut Rng) -> String {
        match rng.below(8) {
            0 | 1 => "23:59:60".to_string(),
            2 => rng.pick(&["00:00:00", "23:59:59"]).to_string(),
            3 => edge_time(rng),
            _ => plain_time(rng),
        }
    }

    /// A valid record, covered more often than not.
    pub fn record(&self, rng: &mut Rng) -> Record {
        let leap = rng.pick(&self.leaps).0;
        let end = rng.pick(&[FIRST_SECOND, LAST_SECOND]);
        let sec = match rng.below(16) {
            0 => rng.between(-1 << 41, (1 << 41) - 1),
            1 => end + rng.between(-2, 2),
            2..=4 => leap + rng.between(-2, 2),
            _ => rng.between(FIRST_SECOND, LAST_SECOND),
        };
        let ticks = ticks(rng);
        Record { sec, ticks }
    }
}

/// Good ticks: any, or at most one tick from a step of some number of digits.
fn ticks(rng: &mut Rng) -> u64 {
    let unit = unit(rng.below(13) as u8);
    let step = unit * rng.below(Record::TICKS / unit);
    match rng.below(8) {
        0 => step,
        1 => step + 1,
        2 => step.saturating_sub(1),
        3 => Record::TICKS - 1 - rng.below(2),
        4 => step + unit / 2,
        _ => rng.below(Record::TICKS),
    }
}

/// Each field at or next to an end of its range.
fn edge_date(rng: &mut Rng, day_of_year: bool) -> String {
    let year = rng.pick(&[0, 1, 1900, 1971, 1972, 2000, 2016, 2023, 2025, 2026, 9999]);
    if day_of_year {
        let day = rng.pick(&[0, 1, 59, 60, 61, 365, 366, 367, 999]);
        return format!("{year:04}-{day:03}");
    }
    let month = rng.pick(&[0, 1, 2, 4, 6, 11, 12, 13, 99]);
    let day = rng.pick(&[0, 1, 28, 29, 30, 31, 32, 99]);
    format!("{year:04}-{month:02}-{day:02}")
}

fn edge_time(rng: &mut Rng) -> String {
    let hour = rng.pick(&[0, 12, 22, 23, 24, 99]);
    let minute = rng.pick(&[0, 58, 59, 60, 99]);
    let second = rng.pick(&[0, 59, 60, 61, 99]);
    format!("{hour:02}:{minute:02}:{second:02}")
}

/// One byte is changed, inserted, removed, doubled or moved, a letter made small, a blank added, the text cut
/// or doubled. What comes out is good at times.
pub fn damage(rng: &mut Rng, text: &mut Vec<u8>) {
    let (place, any) = (rng.below(text.len() as u64) as usize, character(rng));
    match rng.below(11) {
        0 | 1 => text[place] = any,
        2 => text.insert(place, any),
        3 => text.push(any),
        4 => drop(text.remove(place)),
        5 => text.truncate(place),
        6 => drop(text.drain(..place)),
        7 => text.insert(place, text[place]),
        8 => text.make_ascii_lowercase(),
        9 => text.insert(rng.pick(&[0, place, text.len()]), rng.pick(b" \t\n\r\0")),
        _ => text.swap(place, place.saturating_sub(1)),
    }
    if rng.once_in(50) {
        *text = text.repeat(2);
    }
}

/// A character that a text may hold, or at times any byte.
fn character(rng: &mut Rng) -> u8 {
    match rng.below(4) {
        0 => rng.u64() as u8,
        _ => rng.pick(CHARACTERS),
    }
}

/// So many characters of any order.
pub fn any_characters(rng: &mut Rng, count: usize) -> Vec<u8> {
    (0..count).map(|_| rng.pick(CHARACTERS)).collect()
}

/// A text whose marks stand as in a code, while its digits are any.
pub fn any_digits(rng: &mut Rng, setting: AsciiSetting) -> Vec<u8> {
    let date = if setting.day_of_year {
        "0000-000"
    } else {
        "0000-00-00"
    };
    let mut text = text(rng, setting, date, "00:00:00");
    for byte in text.iter_mut().filter(|byte| byte.is_ascii_digit()) {
        *byte = b'0' + rng.below(10) as u8;
    }
    text
}

/// A line of any kind, without its line feed: good, damaged, empty, with a carriage return, long or rubbish.
pub fn line(rng: &mut Rng, texts: &Texts) -> Vec<u8> {
    let mut line = texts.text(rng);
    match rng.below(16) {
        0 => line.clear(),
        1 => line.push(b'\r'),
        2 => {
            let length = rng.between(60, 70) as usize;
            line.resize(length, rng.pick(b" 0Z\0\xFF"));
        }
        3 => {
            let count = rng.below(200) as usize;
            line = any_bytes(rng, count);
        }
        4..=6 => damage(rng, &mut line),
        _ => {}
    }
    line
}
