//! Shortened tags, CUC and ASCII: the moments that they name, listed.

use crate::binary::Preamble;
use crate::raw;
use crate::refusal::{answer, Refusal};
use crate::scale::Record;

/// What a listing says beside the seconds, which are in the caller's list.
///
/// A list of any length will do. All moments of a window have room in `to.sec - from.sec + 1` elements, and
/// those of a CUC tag of c coarse octets in `(to.sec - from.sec) / 256^c + 1`.
#[derive(Clone, Copy, PartialEq, Eq, Debug, Hash)]
pub struct Listing {
    /// The ticks of every moment that the tag names, listed or not.
    pub ticks: u64,
    /// How many seconds are listed, at the list's start: its length, or the number of named moments in the
    /// window, whichever is less.
    pub count: usize,
    /// Whether the window has named moments beyond those listed.
    pub more: bool,
}

/// Lists the moments that a CUC tag names, from `from` on and before `to`.
///
/// A tag is a P octet and exactly its T-field, laid out as [`Preamble`] says: a counter of c coarse octets
/// that wraps. It names epoch + T + k × 256^c seconds for every whole k from 0 on, T taken with its fraction.
/// A tag that does not use the epoch ignores it, whatever it is.
///
/// The seconds of the named moments stand at the start of `list`, ascending, each once, none skipped up to
/// the last one listed; later elements stay as they were. An empty list is allowed, and [`Listing::more`]
/// then tells whether the window has any. Equal ends make an empty window. After a refusal all of `list` is
/// as it was.
///
/// Refused with the first of these that holds: [`Refusal::Short`] when the P octet is to be in front and
/// there are no bytes; [`Refusal::Identification`] when its bits 1-3 are neither 001 nor 010, as in any code
/// but CUC; [`Refusal::Unsupported`] when its bit 0 is set; [`Refusal::Range`] when the tag uses the epoch
/// and that is out of range; [`Refusal::Short`] when the bytes end before the T-field does;
/// [`Refusal::Field`] when it ends before they do; [`Refusal::Range`] when `from` or `to` is invalid;
/// [`Refusal::Window`] when `to` is before `from`.
///
/// ```
/// use honigzange::{list_cuc, Listing, Preamble, Record, Refusal};
///
/// // One octet wraps every 256 seconds.
/// let (from, to) = (Record { sec: 0, ticks: 0 }, Record { sec: 1024, ticks: 0 });
/// let mut list = [-1; 5];
/// let listing = list_cuc(&[0x10, 0x00], Preamble::Front, 0, from, to, &mut list)?;
/// assert_eq!(listing, Listing { ticks: 0, count: 4, more: false });
/// assert_eq!(list, [0, 256, 512, 768, -1]);
///
/// // With room for two, and from the tick after these on.
/// let listing = list_cuc(&[0x00], Preamble::Given(0x10), 0, from, to, &mut list[..2])?;
/// assert_eq!(listing, Listing { ticks: 0, count: 2, more: true });
/// let next = Record { sec: list[1], ticks: listing.ticks + 1 };
/// let listing = list_cuc(&[0x00], Preamble::Given(0x10), 0, next, to, &mut list)?;
/// assert_eq!(listing, Listing { ticks: 0, count: 2, more: false });
/// assert_eq!(list[..2], [512, 768]);
///
/// // Half a second from the caller's epoch; nothing is named before that moment.
/// let half = Record::TICKS / 2;
/// let listing = list_cuc(&[0x21, 0x00, 0x80], Preamble::Front, 1000, from, to, &mut list)?;
/// assert_eq!(listing, Listing { ticks: half, count: 1, more: false });
/// assert_eq!(list[0], 1000);
///
/// let longer = list_cuc(&[0x10, 0x00, 0x00], Preamble::Front, 0, from, to, &mut list);
/// assert_eq!(longer, Err(Refusal::Field));
/// let backward = list_cuc(&[0x10, 0x00], Preamble::Front, 0, to, from, &mut list);
/// assert_eq!(backward, Err(Refusal::Window));
/// # Ok::<(), Refusal>(())
/// ```
pub fn list_cuc(
    tag: &[u8],
    preamble: Preamble,
    epoch: i64,
    from: Record,
    to: Record,
    list: &mut [i64],
) -> Result<Listing, Refusal> {
    let (front, p) = match preamble {
        Preamble::Front => (true, 0),
        Preamble::Given(p) => (false, p),
    };
    let mut listing = Listing::NONE;
    let number = raw::list_cuc(
        tag,
        front,
        p,
        epoch,
        from.sec,
        from.ticks,
        to.sec,
        to.ticks,
        list,
        &mut listing.ticks,
        &mut listing.count,
        &mut listing.more,
    );
    answer(number, listing)
}

/// Lists the moments that an ASCII tag names, from `from` on and before `to`.
///
/// A tag is one run of neighbouring subfields of an ASCII code:
///
/// - a calendar: `YYYY-MM-DD`, `-MM-DD`, `--DD`, `YYYY-MM`, `-MM`, `YYYY`, `YYYY-DDD` or `-DDD`;
/// - a time that begins at `hh`, with `:` at `mm`, with `::` at `ss` or with `::.` at the first digit of the
///   fraction, and ends after any of its subfields, of which each of up to 12 digits is one; then, or not,
///   `Z`;
/// - a calendar that ends with its day, `T`, and a time that begins at `hh`.
///
/// Subfields dropped on the left are free, and their separators stay. Subfields dropped on the right have
/// their lowest value, and their separators go. So a calendar alone means 00:00:00, and a time alone leaves
/// the date free. A tag of a moment that there is not, as 2015-12-31T23:59:60, or that the table of leap
/// seconds does not cover, as 1971, names nothing and is not refused.
///
/// The seconds of the named moments stand at the start of `list`, ascending, each once, none skipped up to
/// the last one listed; later elements stay as they were. An empty list is allowed, and [`Listing::more`]
/// then tells whether the window has any. Equal ends make an empty window. After a refusal all of `list` is
/// as it was.
///
/// Refused with the first of these that holds: [`Refusal::Short`] when the tag is empty; [`Refusal::Field`]
/// when it has another shape, when no year has such a month and day, when its own year, from 0001 to 9999,
/// has no such date, or when the hour, the minute or the second is out of range (second 60 is in range with
/// 59 for a minute, if there is one, and 23 for an hour, if there is one); [`Refusal::Range`] when `from` or
/// `to` is invalid; [`Refusal::Window`] when `to` is before `from`; [`Refusal::Uncovered`] when the window,
/// be it empty or not, starts before second [`COVER_START`](crate::COVER_START) or ends after second
/// [`COVER_END`](crate::COVER_END) and 0 ticks.
///
/// ```
/// use honigzange::{list_ascii, Listing, Record, Refusal, COVER_END, COVER_START};
///
/// // All that is covered: 1972-01-01 to 2025-12-31.
/// let (from, to) = (Record { sec: COVER_START, ticks: 0 }, Record { sec: COVER_END, ticks: 0 });
/// let mut list = [0; 30];
///
/// // The leap seconds, and those at the end of a leap year.
/// let listing = list_ascii(b"::60", from, to, &mut list)?;
/// assert_eq!(listing, Listing { ticks: 0, count: 27, more: false });
/// assert_eq!((list[0], list[26]), (457_488_010, 1_861_920_036));
/// let listing = list_ascii(b"-366T23:59:60", from, to, &mut list)?;
/// assert_eq!(listing, Listing { ticks: 0, count: 4, more: false });
/// assert_eq!(list[3], 1_861_920_036);
///
/// // The middle of every second, from the leap second's on.
/// let last = Record { sec: list[3], ticks: 0 };
/// let listing = list_ascii(b"::.5", last, to, &mut list[..2])?;
/// assert_eq!(listing, Listing { ticks: Record::TICKS / 2, count: 2, more: true });
/// assert_eq!(list[..2], [1_861_920_036, 1_861_920_037]);
///
/// let nothing = Listing { ticks: 0, count: 0, more: false };
/// assert_eq!(list_ascii(b"2015-12-31T23:59:60", from, to, &mut list), Ok(nothing));
/// assert_eq!(list_ascii(b"-02-30", from, to, &mut list), Err(Refusal::Field));
/// let later = Record { ticks: 1, ..to };
/// assert_eq!(list_ascii(b"::60", from, later, &mut list), Err(Refusal::Uncovered));
/// # Ok::<(), Refusal>(())
/// ```
pub fn list_ascii(
    tag: &[u8],
    from: Record,
    to: Record,
    list: &mut [i64],
) -> Result<Listing, Refusal> {
    let mut listing = Listing::NONE;
    let number = raw::list_ascii(
        tag,
        from.sec,
        from.ticks,
        to.sec,
        to.ticks,
        list,
        &mut listing.ticks,
        &mut listing.count,
        &mut listing.more,
    );
    answer(number, listing)
}

impl Listing {
    const NONE: Listing = Listing {
        ticks: 0,
        count: 0,
        more: false,
    };
}
