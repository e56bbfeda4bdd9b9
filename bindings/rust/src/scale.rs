//! Records and spans.

use crate::raw;
use crate::refusal::{answer, Refusal};

/// A moment: whole TAI seconds from 1958-01-01T00:00:00 TAI, and ticks.
///
/// Valid seconds are from -2^41 to 2^41 - 1 and valid ticks from 0 to [`Record::TICKS`] - 1. A record is
/// plain data and may be invalid: every call refuses it then with [`Refusal::Range`]. Records are in the
/// order of time.
///
/// ```
/// use honigzange::Record;
///
/// let half = Record { sec: 0, ticks: Record::TICKS / 2 };
/// assert!(Record { sec: -1, ticks: Record::TICKS - 1 } < half);
/// assert!(half < Record { sec: 1, ticks: 0 });
/// ```
// Laid out as in hz_pair: `raw::rates` lends runs of pairs.
#[derive(Clone, Copy, PartialEq, Eq, PartialOrd, Ord, Debug, Hash)]
#[repr(C)]
pub struct Record {
    /// Whole TAI seconds from 1958-01-01T00:00:00 TAI.
    pub sec: i64,
    /// Ticks after that second.
    pub ticks: u64,
}

impl Record {
    /// The ticks of a second. 2^-24 s is 244,140,625 ticks, and a picosecond is 4,096.
    pub const TICKS: u64 = 4_096_000_000_000_000;

    /// The ticks of 2^-24 s. A record is on the grid of rates where its ticks are a multiple of them.
    pub const GRID: u64 = 244_140_625;
}

/// A signed distance of two moments: seconds taken downward, and ticks that are never negative.
///
/// Valid seconds are from -2^42 to 2^42 - 1 and valid ticks from 0 to [`Record::TICKS`] - 1. A span is
/// plain data and may be invalid: every call refuses it then with [`Refusal::Range`]. Spans are in the
/// order of signed length.
///
/// Minus half a second is -1 s and 2,048,000,000,000,000 ticks:
///
/// ```
/// use honigzange::{difference, Record, Span};
///
/// let start = Record { sec: 0, ticks: 0 };
/// let half = Record { sec: 0, ticks: Record::TICKS / 2 };
/// assert_eq!(difference(start, half), Ok(Span { sec: -1, ticks: 2_048_000_000_000_000 }));
/// ```
#[derive(Clone, Copy, PartialEq, Eq, PartialOrd, Ord, Debug, Hash)]
pub struct Span {
    /// Whole seconds, taken downward.
    pub sec: i64,
    /// Ticks to add to those seconds.
    pub ticks: u64,
}

/// The span `a - b`, exactly: [`shift`] of `b` by it gives `a`.
///
/// Refused with [`Refusal::Range`] when a record is invalid, and never otherwise.
///
/// ```
/// use honigzange::{difference, Record, Refusal};
///
/// let valid = Record { sec: 0, ticks: 0 };
/// let invalid = Record { sec: 0, ticks: Record::TICKS };
/// assert_eq!(difference(valid, invalid), Err(Refusal::Range));
/// ```
pub fn difference(a: Record, b: Record) -> Result<Span, Refusal> {
    let mut span = Span { sec: 0, ticks: 0 };
    let number = raw::difference(
        a.sec,
        a.ticks,
        b.sec,
        b.ticks,
        &mut span.sec,
        &mut span.ticks,
    );
    answer(number, span)
}

/// The record that lies the span `by` after `r` (before it, when the span is negative), exactly.
///
/// Refused with [`Refusal::Range`] when the record or the span is invalid, or the sum is no valid record.
///
/// ```
/// use honigzange::{shift, Record, Refusal, Span};
///
/// let last = Record { sec: (1 << 41) - 1, ticks: Record::TICKS - 1 };
/// let back = shift(last, Span { sec: -1, ticks: 1 })?;
/// assert_eq!(back, Record { sec: (1 << 41) - 1, ticks: 0 });
/// assert_eq!(shift(last, Span { sec: 0, ticks: 1 }), Err(Refusal::Range));
/// # Ok::<(), Refusal>(())
/// ```
pub fn shift(r: Record, by: Span) -> Result<Record, Refusal> {
    let mut to = Record { sec: 0, ticks: 0 };
    let number = raw::shift(r.sec, r.ticks, by.sec, by.ticks, &mut to.sec, &mut to.ticks);
    answer(number, to)
}
