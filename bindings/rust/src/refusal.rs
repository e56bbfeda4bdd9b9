//! The refusals, and how a number of the C interface becomes one.

use core::error::Error;
use core::fmt;

/// Why a call did not answer. Memory lent to the call is unchanged.
///
/// ```
/// use honigzange::Refusal;
///
/// assert_eq!(Refusal::Range.number(), 7);
/// assert_eq!(Refusal::from_number(7), Some(Refusal::Range));
/// assert_eq!(Refusal::from_number(0), None);
/// ```
#[derive(Clone, Copy, PartialEq, Eq, Debug, Hash)]
pub enum Refusal {
    /// 1: binary bytes run out, or ASCII is empty.
    Short,
    /// 2: identification 000, 011, 110 or 111; in a listing any but CUC.
    Identification,
    /// 3: extension bit set, CDS 11, CCS 7, or a writer's digits over 12.
    Unsupported,
    /// 4: a field, BCD digit, character or length breaks its rule.
    Field,
    /// 5: UTC day outside the table of leap seconds.
    Uncovered,
    /// 6: a second 60 (or millisecond from 86,400,000) on a day without one.
    NoSuchSecond,
    /// 7: invalid record, span, epoch or receiver; sum, day number or elapsed time out of range; target can't hold
    /// it.
    Range,
    /// 8: output too short.
    Room,
    /// 9: window's end before its start.
    Window,
    /// 10: ground elapsed zero or negative.
    NotElapsed,
    /// 11: a record off the grid of 2^-24 s.
    OffGrid,
}

impl Refusal {
    /// The refusal number, from 1 on.
    pub const fn number(self) -> u8 {
        match self {
            Refusal::Short => 1,
            Refusal::Identification => 2,
            Refusal::Unsupported => 3,
            Refusal::Field => 4,
            Refusal::Uncovered => 5,
            Refusal::NoSuchSecond => 6,
            Refusal::Range => 7,
            Refusal::Room => 8,
            Refusal::Window => 9,
            Refusal::NotElapsed => 10,
            Refusal::OffGrid => 11,
        }
    }

    /// The refusal of this number, if there is one.
    pub const fn from_number(number: u8) -> Option<Refusal> {
        Some(match number {
            1 => Refusal::Short,
            2 => Refusal::Identification,
            3 => Refusal::Unsupported,
            4 => Refusal::Field,
            5 => Refusal::Uncovered,
            6 => Refusal::NoSuchSecond,
            7 => Refusal::Range,
            8 => Refusal::Room,
            9 => Refusal::Window,
            10 => Refusal::NotElapsed,
            11 => Refusal::OffGrid,
            _ => return None,
        })
    }

    /// A short text: what the number means.
    ///
    /// ```
    /// use honigzange::Refusal;
    ///
    /// assert_eq!(Refusal::NoSuchSecond.meaning(), "no leap second on this day");
    /// ```
    pub const fn meaning(self) -> &'static str {
        match self {
            Refusal::Short => "input too short",
            Refusal::Identification => "no time code of this identification",
            Refusal::Unsupported => "unsupported variation of the code",
            Refusal::Field => "a field breaks its rule",
            Refusal::Uncovered => "UTC day outside the table of leap seconds",
            Refusal::NoSuchSecond => "no leap second on this day",
            Refusal::Range => "out of range",
            Refusal::Room => "output too short",
            Refusal::Window => "window's end before its start",
            Refusal::NotElapsed => "ground elapsed time is not positive",
            Refusal::OffGrid => "a record off the grid of 2^-24 s",
        }
    }
}

impl fmt::Display for Refusal {
    fn fmt(&self, f: &mut fmt::Formatter<'_>) -> fmt::Result {
        write!(f, "refused {}: {}", self.number(), self.meaning())
    }
}

impl Error for Refusal {}

/// The library answers a refusal number or 0, and nothing else: its statements say so.
pub(crate) fn answer<T>(number: u8, value: T) -> Result<T, Refusal> {
    Refusal::from_number(number).map_or(Ok(value), Err)
}
