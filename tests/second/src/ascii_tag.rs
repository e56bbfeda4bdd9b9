//! ASCII tags by full codes: a tag names a moment when it is what remains of a full code of that moment after
//! subfields are deleted as 301.0-B-4 has it (3.5.1.3), those deleted on the right having their lowest value.

use crate::ascii::{self, Setting, Text};
use crate::leap;
use crate::listing::{window, Listing};
use crate::scale;
use std::collections::HashMap;
use std::ops::Range;
use std::sync::LazyLock;

const EMPTY: u8 = 1;
const BAD_FIELD: u8 = 4;
const UNCOVERED: u8 = 5;

/// The subfields of both calendars, and of the time with 12 digits. Each digit of the fraction is one.
type Places = &'static [Range<usize>];
const MONTH_AND_DAY: Places = &[0..4, 5..7, 8..10];
const DAY_OF_YEAR: Places = &[0..4, 5..8];
#[rustfmt::skip]
const TIME: Places = &[
    0..2, 3..5, 6..8,
    9..10, 10..11, 11..12, 12..13, 13..14, 14..15, 15..16, 16..17, 17..18, 18..19, 19..20, 20..21,
];

/// Digits of the fraction are not deleted on the left.
const FIRST_DIGIT: usize = 3;

/// So many seconds are gone through one by one.
pub const SHORT_RANGE: i64 = 600;

/// The moments from one record to another that a tag names, as far as the room goes.
pub fn list(tag: &[u8], from: (i64, u64), to: (i64, u64), room: usize) -> Result<Listing, u8> {
    if tag.is_empty() {
        return Err(EMPTY);
    }
    let ticks = ticks(tag).ok_or(BAD_FIELD)?;
    let window = window(from, to)?;
    let cover = leap::cover();
    if window.start < scale::total(cover.start, 0) || scale::total(cover.end, 0) < window.end {
        return Err(UNCOVERED);
    }
    let range = at_or_after(window.start, ticks)..at_or_after(window.end, ticks);
    let named = likely(tag, range).filter(|&sec| names(tag, sec, ticks));
    Ok(Listing::new(ticks, named, room))
}

/// Whether a tag names a covered moment of whole picoseconds.
pub fn names(tag: &[u8], sec: i64, ticks: u64) -> bool {
    let z = tag.ends_with(b"Z");
    let mut codes = [false, true].into_iter();
    codes.any(|by_day_of_year| {
        let code = full_code(sec, ticks, by_day_of_year, z);
        shortens(tag, code.as_bytes())
    })
}

/// Whether a tag is what remains of a full code of 12 digits after some deletion.
fn shortens(tag: &[u8], code: &[u8]) -> bool {
    Subsets::of(code).is_some_and(|subsets| subsets.leave(tag))
}

/// The full code of 12 digits. Full codes of fewer digits are shortenings of it.
fn full_code(sec: i64, ticks: u64, by_day_of_year: bool, z: bool) -> Text {
    let setting = Setting {
        by_day_of_year,
        digits: 12,
        z,
    };
    let code = ascii::write(sec, ticks, setting, usize::MAX);
    code.unwrap_or_else(|number| panic!("second {sec} is refused {number}"))
}

/// The first second whose moment with these ticks is not before another moment.
fn at_or_after(moment: i128, ticks: u64) -> i64 {
    let (sec, later) = scale::parts(moment - i128::from(ticks));
    sec as i64 + i64::from(later > 0)
}

/// What stands on the two sides of a full code's T, and its terminator.
struct Subsets<'a> {
    calendar: Subset<'a>,
    time: Subset<'a>,
    z: &'a [u8],
}

struct Subset<'a> {
    text: &'a [u8],
    subfields: Places,
    /// How many subfields remain when all are deleted on the right that have their lowest value.
    least_end: usize,
}

impl<'a> Subsets<'a> {
    fn of(code: &'a [u8]) -> Option<Subsets<'a>> {
        let (code, z) = code.split_at(code.len() - usize::from(code.ends_with(b"Z")));
        let places = match code.len() {
            30 => DAY_OF_YEAR,
            32 => MONTH_AND_DAY,
            _ => return None,
        };
        let (calendar, time) = code.split_at(places[places.len() - 1].end);
        Some(Subsets {
            calendar: Subset::new(calendar, places, b'1'),
            time: Subset::new(time.strip_prefix(b"T")?, TIME, b'0'),
            z,
        })
    }

    fn leave(&self, tag: &[u8]) -> bool {
        self.calendar_alone(tag) || self.time_alone(tag) || self.joined(tag)
    }

    fn calendar_alone(&self, tag: &[u8]) -> bool {
        let time_is_lowest = self.time.least_end == 0;
        time_is_lowest && self.calendar.runs().any(|run| run.eq(tag))
    }

    fn time_alone(&self, tag: &[u8]) -> bool {
        (0..=FIRST_DIGIT)
            .flat_map(|start| self.time.runs_from(start))
            .any(|run| run.chain(self.z).eq(tag))
    }

    /// The calendar keeps its right end, and the time its left one.
    fn joined(&self, tag: &[u8]) -> bool {
        self.calendar.runs_to_end().any(|calendar| {
            let code = calendar.chain(b"T");
            let mut times = self.time.runs_from(0);
            times.any(|time| code.clone().chain(time).chain(self.z).eq(tag))
        })
    }
}

impl<'a> Subset<'a> {
    /// The lowest value of a subfield that can be deleted on the right ends with this digit, after zeros.
    fn new(text: &'a [u8], subfields: Places, lowest: u8) -> Subset<'a> {
        let is_lowest = |place: &&Range<usize>| {
            let (last, zeros) = text[(*place).clone()].split_last().expect("digits");
            *last == lowest && zeros.iter().all(|&zero| zero == b'0')
        };
        let deleted = subfields.iter().rev().take_while(is_lowest).count();
        Subset {
            text,
            subfields,
            least_end: subfields.len() - deleted,
        }
    }

    fn runs(&self) -> impl Iterator<Item = impl Iterator<Item = &u8> + Clone> {
        (0..self.subfields.len()).flat_map(|start| self.runs_from(start))
    }

    fn runs_from(&self, start: usize) -> impl Iterator<Item = impl Iterator<Item = &u8> + Clone> {
        let least = self.least_end.max(start + 1);
        (least..=self.subfields.len()).map(move |end| self.run(start, end))
    }

    fn runs_to_end(&self) -> impl Iterator<Item = impl Iterator<Item = &u8> + Clone> {
        let end = self.subfields.len();
        (0..end).map(move |start| self.run(start, end))
    }

    /// What remains after the subfields before the start and from the end on are deleted: separators stay on
    /// the left and go on the right.
    fn run(&self, start: usize, end: usize) -> impl Iterator<Item = &u8> + Clone {
        let separators = self.subfields[..=start].windows(2);
        let kept = separators.flat_map(|two| &self.text[two[0].end..two[1].start]);
        let run = self.subfields[start].start..self.subfields[end - 1].end;
        kept.chain(&self.text[run])
    }
}

/// The ticks of a good tag, which is a shortening of some full text that breaks no rule. Whether that text's
/// day is covered, or has its second 60, is no matter.
fn ticks(tag: &[u8]) -> Option<u64> {
    let good = |text: &Vec<u8>| shortens(tag, text) && ascii::read(text) != Err(BAD_FIELD);
    let text = completions(tag).find(good)?;
    let fraction = text.iter().position(|&byte| byte == b'.')?;
    let covered = [b"2000-01-01T00:00:00", &text[fraction..]].concat();
    ascii::read(&covered).ok().map(|(_, ticks)| ticks)
}

/// Texts that the tag may have been shortened from: something before it in place of the separators that
/// stayed, and lowest values after it. Most are no codes.
fn completions(tag: &[u8]) -> impl Iterator<Item = Vec<u8>> + '_ {
    let (tag, z) = tag.split_at(tag.len() - usize::from(tag.ends_with(b"Z")));
    let starts = STARTS.iter().filter_map(move |(separators, start)| {
        let left = tag.strip_prefix(separators.as_bytes())?;
        Some((start.as_bytes(), left))
    });
    starts.flat_map(move |(start, left)| {
        let ends = ENDS.iter();
        ends.map(move |end| [start, left, end.as_bytes(), z].concat())
    })
}

/// Separators that stay when subfields are deleted on the left, and these subfields with them. Of the years a
/// leap year and an ordinary one are enough, of the hours, minutes and seconds the ends of their ranges.
static STARTS: LazyLock<Vec<(&str, String)>> = LazyLock::new(|| {
    let mut starts = vec![("", String::new()), ("", "2000-01-01T".to_string())];
    for year in [2000, 2001] {
        starts.push(("-", format!("{year}-")));
        starts.extend((1..=12).map(|month| ("--", format!("{year}-{month:02}-"))));
    }
    for hour in ["00", "23"] {
        let hour = format!("2000-01-01T{hour}:");
        for minute in ["00", "59"] {
            let minute = format!("{hour}{minute}:");
            starts.extend(["00", "59"].map(|second| ("::.", format!("{minute}{second}."))));
            starts.push(("::", minute));
        }
        starts.push((":", hour));
    }
    starts
});

/// What stood where subfields are deleted on the right.
static ENDS: LazyLock<Vec<&str>> = LazyLock::new(|| {
    let lowest = "-01-01T00:00:00.000000000000";
    let digits = (0..12).map(|left| &lowest[lowest.len() - left..]);
    let others = [0, 3, 6, 9, 12, 15].map(|place| &lowest[place..]);
    digits.chain(others).collect()
});

/// The seconds of a range that a tag can name: all of a short one, and of a long one those that are found by
/// what stands before the T and after it.
fn likely(tag: &[u8], range: Range<i64>) -> Box<dyn Iterator<Item = i64>> {
    if range.end - range.start <= SHORT_RANGE {
        return Box::new(range);
    }
    let tag = tag.strip_suffix(b"Z").unwrap_or(tag);
    let (days, time) = match tag.iter().position(|&byte| byte == b'T') {
        Some(t) => (CALENDARS.get(&tag[..t]), &tag[t + 1..]),
        None if CALENDARS.contains_key(tag) => (CALENDARS.get(tag), &b"00"[..]),
        None => (Some(&*DAYS), tag),
    };
    let (Some(days), Some(seconds)) = (days, CLOCKS.get(whole(time))) else {
        return Box::new([].into_iter());
    };
    let (first, _, _) = leap::utc_of_second(range.start).expect("the range is covered");
    let days = &days[days.partition_point(|&day| day < first)..];
    let moments = days.iter().flat_map(|&day| {
        let seconds = seconds.iter();
        seconds.filter_map(move |&second| leap::second_of_utc(day, second).ok())
    });
    Box::new(
        moments
            .skip_while(move |&sec| sec < range.start)
            .take_while(move |&sec| sec < range.end),
    )
}

static DAYS: LazyLock<Vec<i64>> = LazyLock::new(|| leap::days().collect());

/// The covered days by each text that remains of their calendars.
static CALENDARS: LazyLock<HashMap<Vec<u8>, Vec<i64>>> = LazyLock::new(|| {
    let mut calendars = HashMap::new();
    for &day in &*DAYS {
        let sec = leap::second_of_utc(day, 0).expect("the day is covered");
        for code in [false, true].map(|form| full_code(sec, 0, form, false)) {
            let subsets = Subsets::of(code.as_bytes()).expect("the code is full");
            for run in subsets.calendar.runs() {
                add(&mut calendars, run.copied().collect(), day);
            }
        }
    }
    calendars
});

/// The seconds of a day by each text that remains of their time and has no fraction, or is cut off before it.
static CLOCKS: LazyLock<HashMap<Vec<u8>, Vec<u64>>> = LazyLock::new(|| {
    let mut clocks = HashMap::new();
    let has_last = |&day: &i64| leap::second_of_utc(day, 86_400).is_ok();
    let day = leap::days().find(has_last).expect("some day is long");
    for second in 0..=86_400 {
        let sec = leap::second_of_utc(day, second).expect("the day is long");
        let code = full_code(sec, 0, false, false);
        let time = Subsets::of(code.as_bytes()).expect("the code is full").time;
        for start in 0..=FIRST_DIGIT {
            for end in time.least_end.max(start + 1)..=FIRST_DIGIT + 1 {
                let text = time.run(start, end).copied().collect::<Vec<_>>();
                add(&mut clocks, whole(&text).to_vec(), second);
            }
        }
    }
    clocks
});

/// Numbers come in order, and the same one may come again.
fn add<T: PartialEq>(index: &mut HashMap<Vec<u8>, Vec<T>>, text: Vec<u8>, number: T) {
    let numbers = index.entry(text).or_default();
    if numbers.last() != Some(&number) {
        numbers.push(number);
    }
}

/// A time without its fraction.
fn whole(time: &[u8]) -> &[u8] {
    time.split(|&byte| byte == b'.').next().unwrap_or_default()
}
