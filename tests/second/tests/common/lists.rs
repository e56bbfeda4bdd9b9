//! Listings: lent lists and result cells, windows and rooms of all kinds, and the tally of what was listed.

use super::codes::{FIRST_SECOND, LAST_SECOND};
use super::{after, floor, Scale, Tally};
use honigzange::{Listing, Record, Refusal};
use second::listing;
use second::rng::Rng;
use std::fmt::Debug;

/// What the second program answers.
pub type Expected = Result<listing::Listing, u8>;

/// The result cells: ticks, count and more.
pub type Cells = (u64, usize, bool);

/// The first covered moment, and the first one past the cover.
pub const COVER: (Record, Record) = (
    Record {
        sec: FIRST_SECOND,
        ticks: 0,
    },
    Record {
        sec: LAST_SECOND + 1,
        ticks: 0,
    },
);

/// Elements before and behind the lent list that are not lent.
const MARGIN: usize = 2;

pub fn pair(record: Record) -> (i64, u64) {
    (record.sec, record.ticks)
}

/// A call that lists must do what is expected, and to no other element or cell anything at all.
pub fn compare_listed(
    rng: &mut Rng,
    input: &impl Debug,
    expected: &Expected,
    room: usize,
    call: impl Fn(&mut [i64], &mut Cells) -> u8,
) {
    let memory = (0..room + 2 * MARGIN).map(|_| rng.i64());
    let memory = memory.collect::<Vec<_>>();
    let before = (rng.u64(), rng.u64() as usize, rng.once_in(2));
    let mut wanted = memory.clone();
    if let Ok(listing) = expected {
        wanted[MARGIN..][..listing.secs.len()].copy_from_slice(&listing.secs);
    }
    let (mut found, mut cells) = (memory, before);
    let number = call(&mut found[MARGIN..MARGIN + room], &mut cells);
    let expected = match expected {
        Ok(listing) => Ok((listing.ticks, listing.secs.len(), listing.more)),
        Err(number) => Err(*number),
    };
    assert_eq!(
        (number, cells),
        after(expected, before),
        "{input:?}, {room}"
    );
    let other = (0..wanted.len()).find(|&place| found[place] != wanted[place]);
    let other = other.map(|place| (place as i64 - MARGIN as i64, found[place], wanted[place]));
    assert_eq!(other, None, "place, found, wanted: {input:?}, {room}");
}

/// A call's answer in the terms of C: the number, and the cells when it is 0.
pub fn told(answer: Result<Listing, Refusal>, cells: &mut Cells) -> u8 {
    match answer {
        Ok(Listing { ticks, count, more }) => {
            *cells = (ticks, count, more);
            0
        }
        Err(refusal) => refusal.number(),
    }
}

/// How often each answer was given, and what the lists were.
#[derive(Default, Debug)]
pub struct Listed {
    pub tally: Tally,
    pub empty: u64,
    pub whole: u64,
    pub more: u64,
}

impl Listed {
    pub fn count(&mut self, expected: &Expected) {
        self.tally.count(expected);
        match expected {
            Ok(listing) if listing.more => self.more += 1,
            Ok(listing) if listing.secs.is_empty() => self.empty += 1,
            Ok(_) => self.whole += 1,
            Err(_) => {}
        }
    }

    /// Lists of each kind were more than said.
    pub fn assert_each_over(&self, count: u64) {
        let least = self.empty.min(self.whole).min(self.more);
        assert!(least > floor(count), "too few of a kind: {self:?}");
    }
}

/// None, one, a few or many.
pub fn room(rng: &mut Rng) -> usize {
    match rng.below(8) {
        0 => 0,
        1 | 2 => 1,
        3..=6 => rng.below(8) as usize,
        _ => rng.below(200) as usize,
    }
}

/// Ticks around those of a tag, or any.
pub fn ticks_near(rng: &mut Rng, ticks: u64) -> u64 {
    let last = Record::TICKS - 1;
    match rng.below(8) {
        0 => 0,
        1 => last,
        2 => rng.below(Record::TICKS),
        3 | 4 => ticks,
        5 | 6 => (ticks + 1).min(last),
        _ => ticks.saturating_sub(1),
    }
}

/// The window of all records but the last.
pub const RECORDS: (Record, Record) = (
    Record {
        sec: -1 << 41,
        ticks: 0,
    },
    Record {
        sec: (1 << 41) - 1,
        ticks: Record::TICKS - 1,
    },
);

/// A window around a moment, so many seconds to a side at most, and inside another window. Its ends are equal
/// at times.
pub fn around(
    rng: &mut Rng,
    moment: Record,
    reach: i64,
    (first, last): (Record, Record),
) -> (Record, Record) {
    let from = Record {
        sec: moment.sec - rng.between(0, reach),
        ticks: ticks_near(rng, moment.ticks),
    };
    let to = Record {
        sec: moment.sec + rng.between(0, reach),
        ticks: ticks_near(rng, moment.ticks),
    };
    let to = if rng.once_in(16) { from } else { to };
    (
        from.min(to).clamp(first, last),
        from.max(to).clamp(first, last),
    )
}

/// One of the ends is any record, valid or not, or the ends are exchanged.
pub fn spoil(rng: &mut Rng, scale: &Scale, window: (Record, Record)) -> (Record, Record) {
    match rng.below(3) {
        0 => (scale.any_record(rng), window.1),
        1 => (window.0, scale.any_record(rng)),
        _ => (window.1, window.0),
    }
}

/// A window is cut in two, and a list is cut by its room and gone on with. Nothing changes by that.
pub fn compare_cuts(
    rng: &mut Rng,
    (from, to): (Record, Record),
    list: impl Fn(Record, Record, &mut [i64]) -> Result<Listing, Refusal>,
) -> usize {
    let all = |from, to| {
        let mut secs = vec![0; 1000];
        let listing = list(from, to, &mut secs).expect("the tag and the window are good");
        assert!(!listing.more, "the window is small");
        secs.truncate(listing.count);
        (secs, listing.ticks)
    };
    let (whole, ticks) = all(from, to);
    let between = Record {
        sec: rng.between(from.sec, to.sec),
        ticks: ticks_near(rng, ticks),
    };
    let cut = between.clamp(from, to);
    assert_eq!([all(from, cut).0, all(cut, to).0].concat(), whole);
    let mut few = vec![0; rng.below(whole.len() as u64 + 2) as usize];
    let listing = list(from, to, &mut few).expect("the tag and the window are good");
    assert_eq!(listing.count, few.len().min(whole.len()));
    assert_eq!(listing.more, listing.count < whole.len());
    few.truncate(listing.count);
    let next = few.last().map_or(from, |&sec| Record {
        sec,
        ticks: ticks + 1,
    });
    assert_eq!([few, all(next, to).0].concat(), whole);
    whole.len()
}
