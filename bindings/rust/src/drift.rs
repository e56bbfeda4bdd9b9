//! Drift: exact rates between pairs of an onboard and a ground record, and the report on a run of pairs.

use crate::raw;
use crate::refusal::{answer, Refusal};
use crate::scale::Record;
use core::cmp::Ordering;
use core::fmt;

/// An onboard record, and the ground record that it came with.
// Laid out as hz_pair: `raw::rates` lends runs of them.
#[derive(Clone, Copy, PartialEq, Eq, Debug, Hash)]
#[repr(C)]
pub struct Pair {
    /// What the onboard clock said.
    pub onboard: Record,
    /// What the clock on the ground said.
    pub ground: Record,
}

/// Onboard elapsed over ground elapsed, exactly: a signed numerator over a positive denominator, in lowest terms.
///
/// 1/1 is an onboard clock that runs as the ground's does. 0 is 0/1. Rates are in the order of their values. Only
/// [`rate`] and [`rates`] make them, so that a rate is always a number: nothing here is rounded, and nothing turns
/// it into a floating-point number.
///
/// ```
/// use honigzange::{rate, Pair, Record};
///
/// let at = |onboard, ground| Pair {
///     onboard: Record { sec: onboard, ticks: 0 },
///     ground: Record { sec: ground, ticks: 0 },
/// };
/// let slow = rate(at(0, 0), at(9_999, 10_000))?;
/// assert_eq!((slow.num(), slow.den()), (9_999, 10_000));
/// assert_eq!(slow.to_string(), "9999/10000");
/// let back = rate(at(0, 0), at(-10, 20))?;
/// assert_eq!(back.to_string(), "-1/2");
/// assert!(back < slow);
/// assert_eq!(rate(at(7, 0), at(7, 3))?.to_string(), "0/1");
/// # Ok::<(), honigzange::Refusal>(())
/// ```
#[derive(Clone, Copy, PartialEq, Eq, Debug, Hash)]
pub struct Rate {
    num: i64,
    den: u64,
}

impl Rate {
    /// The numerator, with the rate's sign.
    pub const fn num(self) -> i64 {
        self.num
    }

    /// The denominator, which is never 0.
    pub const fn den(self) -> u64 {
        self.den
    }
}

impl Ord for Rate {
    fn cmp(&self, other: &Rate) -> Ordering {
        let cross = |a: &Rate, b: &Rate| i128::from(a.num) * i128::from(b.den);
        cross(self, other).cmp(&cross(other, self))
    }
}

impl PartialOrd for Rate {
    fn partial_cmp(&self, other: &Rate) -> Option<Ordering> {
        Some(self.cmp(other))
    }
}

impl fmt::Display for Rate {
    fn fmt(&self, f: &mut fmt::Formatter<'_>) -> fmt::Result {
        write!(f, "{}/{}", self.num, self.den)
    }
}

/// A rate of a run, and where it stands first: place i is from pair i to pair i + 1.
#[derive(Clone, Copy, PartialEq, Eq, Debug, Hash)]
pub struct Extreme {
    /// The rate.
    pub rate: Rate,
    /// Its first place among all neighbouring twos, from 0, refused ones counted too.
    pub place: usize,
}

/// What the neighbouring twos of a run come to. Each is counted once, so that the four counts add up to their
/// number.
#[derive(Clone, Copy, PartialEq, Eq, Debug, Hash)]
pub struct Report {
    /// How many have a rate.
    pub rates: usize,
    /// How many are refused with [`Refusal::Range`], for either cause.
    pub range: usize,
    /// How many are refused with [`Refusal::NotElapsed`].
    pub not_elapsed: usize,
    /// How many are refused with [`Refusal::OffGrid`].
    pub off_grid: usize,
    /// The smallest rate, if there is any.
    pub smallest: Option<Extreme>,
    /// The largest rate, if there is any.
    pub largest: Option<Extreme>,
}

/// The rate from one pair to another: what has elapsed onboard over what has elapsed on the ground.
///
/// Refused with the first of these that holds: [`Refusal::Range`] when one of the four records is invalid;
/// [`Refusal::OffGrid`] when the ticks of one are no multiple of [`Record::GRID`]; [`Refusal::Range`] when onboard
/// or ground elapsed is 2^32 s or more in size; [`Refusal::NotElapsed`] when ground elapsed is zero or negative.
/// The size is the exact absolute value.
///
/// ```
/// use honigzange::{rate, Pair, Record, Refusal};
///
/// let zero = Record { sec: 0, ticks: 0 };
/// let first = Pair { onboard: zero, ground: zero };
/// let to = |onboard, ground| rate(first, Pair { onboard, ground });
///
/// // Two steps of the grid onboard, in three on the ground.
/// let steps = |n| Record { sec: 0, ticks: n * Record::GRID };
/// assert_eq!(to(steps(2), steps(3)).map(|r| r.to_string()), Ok("2/3".to_string()));
///
/// let off = Record { sec: 0, ticks: 1 };
/// let far = Record { sec: 1 << 32, ticks: 0 };
/// assert_eq!(to(off, steps(1)), Err(Refusal::OffGrid));
/// assert_eq!(to(far, zero), Err(Refusal::Range));
/// assert_eq!(to(steps(1), zero), Err(Refusal::NotElapsed));
/// ```
pub fn rate(first: Pair, second: Pair) -> Result<Rate, Refusal> {
    let mut rate = Rate { num: 0, den: 1 };
    let number = raw::rate(
        first.onboard.sec,
        first.onboard.ticks,
        first.ground.sec,
        first.ground.ticks,
        second.onboard.sec,
        second.onboard.ticks,
        second.ground.sec,
        second.ground.ticks,
        &mut rate.num,
        &mut rate.den,
    );
    answer(number, rate)
}

/// The rates between each pair of a run and the next: how many there are, how many are refused with which number,
/// and the smallest and the largest.
///
/// A pair and the next one are a neighbouring two. A run is never refused, and none of its neighbouring twos is
/// passed over: what [`rate`] refuses is counted. A run of no pair or of one has none. Comparison is exact.
///
/// ```
/// use honigzange::{rates, Pair, Record};
///
/// let at = |(onboard, ground)| Pair {
///     onboard: Record { sec: onboard, ticks: 0 },
///     ground: Record { sec: ground, ticks: 0 },
/// };
/// let run = [(0, 0), (1, 2), (1, 2), (2, 4), (5, 4), (4, 6)].map(at);
/// let report = rates(&run);
/// assert_eq!((report.rates, report.range, report.not_elapsed, report.off_grid), (3, 0, 2, 0));
/// let (smallest, largest) = (report.smallest.unwrap(), report.largest.unwrap());
/// assert_eq!((smallest.rate.to_string().as_str(), smallest.place), ("-1/2", 4));
/// assert_eq!((largest.rate.to_string().as_str(), largest.place), ("1/2", 0));
/// assert_eq!(rates(&run[1..3]).smallest, None);
/// ```
pub fn rates(run: &[Pair]) -> Report {
    let mut report = raw::Report::NONE;
    raw::rates(run, &mut report);
    Report {
        rates: report.rates as usize,
        range: report.range as usize,
        not_elapsed: report.not_elapsed as usize,
        off_grid: report.off_grid as usize,
        smallest: extreme(report.smallest),
        largest: extreme(report.largest),
    }
}

/// A denominator 0 is no rate.
fn extreme(told: raw::Extreme) -> Option<Extreme> {
    let raw::Extreme { num, den, place } = told;
    (den != 0).then_some(Extreme {
        rate: Rate { num, den },
        place: place as usize,
    })
}
