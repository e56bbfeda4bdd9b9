//! The binary codes CUC, CDS and CCS.

use crate::raw;
use crate::refusal::{answer, Refusal};
use crate::scale::Record;

/// Bytes that hold any binary code, its P octet in front: at most 8 for CUC, 12 for CDS and 14 for CCS.
pub const BINARY_ROOM: usize = 14;

/// Where the P octet of a code is found, which says how the T-field is laid out.
///
/// # The P octet
///
/// Bit 0 is the most significant.
///
/// | bits | CUC | CDS | CCS |
/// |---|---|---|---|
/// | 0 | 0 | 0 | 0 |
/// | 1-3 | 001 epoch 1958, 010 the caller's epoch | 100 | 101 |
/// | 4 | bits 4-5: coarse octets less one | 0 epoch 1958, 1 the caller's epoch | 0 month and day, 1 day of the year |
/// | 5 | | 0 day in 16 bits, 1 in 24 | bits 5-7: 0 to 6 segments of the fraction |
/// | 6-7 | fine octets, 0 to 3 | 00 no remainder, 01 microsecond, 10 picosecond | |
///
/// # The T-field
///
/// CUC counts TAI, the others show UTC. Counts are big-endian.
///
/// - CUC: whole seconds from the epoch in 1 to 4 coarse octets; the fraction in 0 to 3 fine octets, in units
///   of 1/256, 1/256^2 or 1/256^3 s. The caller's epoch is a count of whole TAI seconds from
///   1958-01-01T00:00:00 TAI, from -2^40 to 2^40 - 1.
/// - CDS: UTC days from the epoch; millisecond of the day (32 bits, 0 to 86,400,999, from 86,400,000 on in a
///   leap second); remainder, the microsecond (16 bits, 0 to 999) or the picosecond (32 bits, 0 to
///   999,999,999) of the millisecond. The caller's epoch is a day number, from -2^24 to 2^24 - 1.
/// - CCS: two decimal digits an octet: year (2 octets, 0001 to 9999); month and day, or day of the year (2
///   octets, the first digit 0); hour; minute; second (60 at 23:59 alone); then two digits of the fraction
///   a segment.
#[derive(Clone, Copy, PartialEq, Eq, Debug, Hash)]
pub enum Preamble {
    /// It is the first byte, and the T-field follows it.
    Front,
    /// It is this one, and the T-field begins at the first byte.
    Given(u8),
}

/// How a binary code is written.
#[derive(Clone, Copy, PartialEq, Eq, Debug, Hash)]
pub struct BinarySetting {
    /// The P octet, laid out as [`Preamble`] says.
    pub p: u8,
    /// The caller's epoch: whole TAI seconds in CUC, a day number in CDS. A code that does not use it ignores
    /// it, whatever it is.
    pub epoch: i64,
    /// Whether the P octet is written before the T-field.
    pub front: bool,
}

/// The moment of the binary code at the start of the bytes, and the part of the bytes that follows the code.
///
/// [`write_binary`] of that moment, with the same P octet and epoch, gives the same bytes. A code that does
/// not use the epoch ignores it, whatever it is. After a refusal nothing is read: the caller still has all
/// the bytes.
///
/// Refused with the first of these that holds: [`Refusal::Short`] when the P octet is to be in front and
/// there are no bytes; [`Refusal::Identification`] when its bits 1-3 are 000, 011, 110 or 111;
/// [`Refusal::Unsupported`] when its bit 0 is set, or bits 6-7 of CDS are 11, or bits 5-7 of CCS 111;
/// [`Refusal::Range`] when the code uses the epoch and that is out of range; [`Refusal::Short`] when the
/// bytes end before the T-field does; [`Refusal::Field`] when a field or digit of CDS or CCS is out of range
/// or there is no such date; [`Refusal::Uncovered`] when the UTC day is outside the table of leap seconds;
/// [`Refusal::NoSuchSecond`] for a second 60, or a millisecond from 86,400,000, on a UTC day that does not
/// end with a leap second.
///
/// ```
/// use honigzange::{read_binary, Preamble, Record, Refusal};
///
/// // 2016-12-31T23:59:60 UTC in each code, and a byte that is not the code's.
/// let leap = Record { sec: 1_861_920_036, ticks: 0 };
/// let cuc = [0x1C, 0x6E, 0xFA, 0xA5, 0x24, 0xFF];
/// let cds = [0x40, 0x54, 0x2D, 0x05, 0x26, 0x5C, 0x00, 0xFF];
/// let by_month = [0x50, 0x20, 0x16, 0x12, 0x31, 0x23, 0x59, 0x60, 0xFF];
/// let by_day = [0x58, 0x20, 0x16, 0x03, 0x66, 0x23, 0x59, 0x60, 0xFF];
/// for bytes in [&cuc[..], &cds, &by_month, &by_day] {
///     assert_eq!(read_binary(bytes, Preamble::Front, 0), Ok((leap, &[0xFF][..])));
///     assert_eq!(read_binary(&bytes[1..], Preamble::Given(bytes[0]), 0), Ok((leap, &[0xFF][..])));
/// }
///
/// // The same CUC seconds from an epoch one minute later, and a T-field cut short.
/// let later = Record { sec: 1_861_920_096, ticks: 0 };
/// assert_eq!(read_binary(&cuc[1..5], Preamble::Given(0x2C), 60), Ok((later, &[][..])));
/// assert_eq!(read_binary(&cuc[1..4], Preamble::Given(0x2C), 60), Err(Refusal::Short));
/// ```
pub fn read_binary(
    bytes: &[u8],
    preamble: Preamble,
    epoch: i64,
) -> Result<(Record, &[u8]), Refusal> {
    let (front, p) = match preamble {
        Preamble::Front => (true, 0),
        Preamble::Given(p) => (false, p),
    };
    let mut record = Record { sec: 0, ticks: 0 };
    let mut used = 0;
    let number = raw::read_binary(
        bytes,
        front,
        p,
        epoch,
        &mut record.sec,
        &mut record.ticks,
        &mut used,
    );
    answer(number, (record, &bytes[used..]))
}

/// Writes the binary code of a moment to the first bytes of `out` and answers how many they are. Later bytes
/// stay as they were.
///
/// What the code can't hold of the fraction is dropped, never rounded up: the code shows the latest time it
/// can that is not after the moment, and [`read_binary`] of it gives that time. A room of [`BINARY_ROOM`] is
/// always enough. After a refusal all of `out` is as it was.
///
/// Refused with the first of these that holds: [`Refusal::Range`] when the record is invalid;
/// [`Refusal::Identification`] when bits 1-3 of the P octet are 000, 011, 110 or 111;
/// [`Refusal::Unsupported`] when its bit 0 is set, or bits 6-7 of CDS are 11, or bits 5-7 of CCS 111;
/// [`Refusal::Range`] when the code uses the epoch and that is out of range; [`Refusal::Uncovered`] when the
/// code is CDS or CCS and the moment is outside the table of leap seconds; [`Refusal::Range`] when the
/// moment's whole seconds (CUC) or UTC day (CDS) are before the epoch or too far after it for their field;
/// [`Refusal::Room`] when `out` is shorter than the code.
///
/// ```
/// use honigzange::{write_binary, BinarySetting, Record, Refusal, BINARY_ROOM};
///
/// // 2016-12-31T23:59:60 UTC in each code.
/// let leap = Record { sec: 1_861_920_036, ticks: 0 };
/// let cuc = [0x1C, 0x6E, 0xFA, 0xA5, 0x24];
/// let cds = [0x40, 0x54, 0x2D, 0x05, 0x26, 0x5C, 0x00];
/// let by_month = [0x50, 0x20, 0x16, 0x12, 0x31, 0x23, 0x59, 0x60];
/// let by_day = [0x58, 0x20, 0x16, 0x03, 0x66, 0x23, 0x59, 0x60];
/// for code in [&cuc[..], &cds, &by_month, &by_day] {
///     let mut out = [0; BINARY_ROOM];
///     let setting = BinarySetting { p: code[0], epoch: 0, front: true };
///     assert_eq!(write_binary(leap, setting, &mut out), Ok(code.len()));
///     assert_eq!(&out[..code.len()], code);
///     let apart = BinarySetting { front: false, ..setting };
///     assert_eq!(write_binary(leap, apart, &mut out), Ok(code.len() - 1));
///     assert_eq!(&out[..code.len() - 1], &code[1..]);
/// }
///
/// // Half of the second, with one fine octet; and too little room for it.
/// let half = Record { ticks: Record::TICKS / 2, ..leap };
/// let setting = BinarySetting { p: 0x1D, epoch: 0, front: false };
/// let mut out = [0; 5];
/// assert_eq!(write_binary(half, setting, &mut out[..4]), Err(Refusal::Room));
/// assert_eq!(out, [0; 5]);
/// assert_eq!(write_binary(half, setting, &mut out), Ok(5));
/// assert_eq!(out, [0x6E, 0xFA, 0xA5, 0x24, 0x80]);
/// ```
pub fn write_binary(
    record: Record,
    setting: BinarySetting,
    out: &mut [u8],
) -> Result<usize, Refusal> {
    let Record { sec, ticks } = record;
    let BinarySetting { p, epoch, front } = setting;
    let mut written = 0;
    let number = raw::write_binary(sec, ticks, front, p, epoch, out, &mut written);
    answer(number, written)
}
