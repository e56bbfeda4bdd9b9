//! T-fields that a link cuts anywhere.

use crate::raw;
use crate::refusal::{answer, Refusal};
use crate::scale::Record;

/// Takes the T-fields that a link delivers under one P octet and epoch, cut anywhere.
///
/// A serial port hands bytes over as they come. A receiver is fed with them, piece by piece, and holds the octets of
/// an unfinished T-field until the others come. However the bytes are cut, the answers are those of
/// [`read_binary`](crate::read_binary) on all of them, the P octet apart: one T-field, and then the one behind it.
/// A refused T-field uses up its length as a good one does.
///
/// A receiver is plain data that may be copied, and a copy goes on where it was made. It does not look for the start
/// of a T-field: when the link has lost a byte, another one is made where a T-field begins.
///
/// ```
/// use honigzange::{Receiver, Record, Refusal, Row};
///
/// // Days and milliseconds, of which the link cuts the second T-field in two.
/// let receiver = Receiver::new(0x40, 0)?;
/// let mut rows = [Row::EMPTY; 4];
/// let (receiver, answered) = receiver.feed(&[0x54, 0x2D, 0x05, 0x26, 0x5C, 0x00, 0x54, 0x2D], &mut rows)?;
/// let leap = Record { sec: 1_861_920_036, ticks: 0 };
/// assert_eq!(answered.len(), 1);
/// assert_eq!(answered[0].answer(), Ok(leap));
/// assert_eq!(receiver.pending(), [0x54, 0x2D]);
///
/// // One millisecond past the longest day, and then 2017-01-01T00:00:00.
/// let rest = [0x05, 0x26, 0x5F, 0xE8, 0x54, 0x2E, 0x00, 0x00, 0x00, 0x00];
/// assert_eq!(receiver.feed(&rest, &mut rows[..1]), Err(Refusal::Room));
/// let (receiver, answered) = receiver.feed(&rest, &mut rows)?;
/// let midnight = Record { sec: 1_861_920_037, ticks: 0 };
/// assert!(answered.iter().map(|row| row.answer()).eq([Err(Refusal::Field), Ok(midnight)]));
/// assert!(receiver.pending().is_empty());
/// # Ok::<(), Refusal>(())
/// ```
#[derive(Clone, Copy, PartialEq, Eq, Debug, Hash)]
pub struct Receiver(raw::Receiver);

/// What a T-field says: its record, or why it is refused.
// Laid out as hz_row: `raw::receive` lends rows.
#[derive(Clone, Copy, PartialEq, Eq, Debug, Hash)]
#[repr(C)]
pub struct Row {
    /// 0, or the refusal's number.
    pub refusal: u64,
    /// The record. Both its numbers are 0 where the T-field is refused.
    pub record: Record,
}

impl Row {
    /// A row to be lent.
    pub const EMPTY: Row = Row {
        refusal: 0,
        record: Record { sec: 0, ticks: 0 },
    };

    /// The record, or [`Refusal::Field`], [`Refusal::Uncovered`] or [`Refusal::NoSuchSecond`].
    pub fn answer(self) -> Result<Record, Refusal> {
        answer(self.refusal as u8, self.record)
    }
}

impl Receiver {
    /// A receiver that holds nothing yet.
    ///
    /// The P octet is laid out as [`Preamble`](crate::Preamble) says. A code that does not use the epoch ignores it,
    /// whatever it is.
    ///
    /// Refused with the first of these that holds: [`Refusal::Identification`] when bits 1-3 of the P octet are 000,
    /// 011, 110 or 111; [`Refusal::Unsupported`] when its bit 0 is set, or bits 6-7 of CDS are 11, or bits 5-7 of CCS
    /// 111; [`Refusal::Range`] when the code uses the epoch and that is out of range.
    ///
    /// ```
    /// use honigzange::{Receiver, Refusal};
    ///
    /// assert!(Receiver::new(0x1C, i64::MAX).is_ok());
    /// assert_eq!(Receiver::new(0x2C, 1 << 40), Err(Refusal::Range));
    /// assert_eq!(Receiver::new(0x9C, 0), Err(Refusal::Unsupported));
    /// assert_eq!(Receiver::new(0x6C, 0), Err(Refusal::Identification));
    /// ```
    pub fn new(p: u8, epoch: i64) -> Result<Receiver, Refusal> {
        let mut made = raw::Receiver::NONE;
        let number = raw::receiver_make(p, epoch, &mut made);
        answer(number, Receiver(made))
    }

    /// The next receiver, and a row for each T-field that the piece completes, in their order: the first of `rows`.
    /// Later rows stay as they were. The bytes left at the end are pending in the next receiver.
    ///
    /// A piece may have any length, 0 too. T-fields of w octets take `(pending + piece) / w` rows: as many as the
    /// piece has bytes are always enough, and none is asked for where no T-field is completed.
    ///
    /// Refused with [`Refusal::Room`] when there are fewer rows than T-fields completed. Then no byte of the piece is
    /// taken and no row is written: this receiver, given the same piece and more rows, goes on.
    pub fn feed<'a>(
        self,
        piece: &[u8],
        rows: &'a mut [Row],
    ) -> Result<(Receiver, &'a [Row]), Refusal> {
        let Receiver(mut next) = self;
        let mut count = 0;
        let number = raw::receive(&mut next, piece, rows, &mut count);
        answer(number, (Receiver(next), &rows[..count]))
    }

    /// The octets of the unfinished T-field.
    pub fn pending(&self) -> &[u8] {
        &self.0.pending[..usize::from(self.0.count)]
    }
}
