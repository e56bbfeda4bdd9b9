//! The ASCII codes A and B, and the wall clock's text.

use crate::raw;
use crate::refusal::{answer, Refusal};
use crate::scale::Record;

/// Bytes that hold any ASCII code: form A with 12 digits of the fraction and Z.
pub const ASCII_ROOM: usize = 33;

/// Bytes that hold what [`write_wall`] writes.
pub const WALL_ROOM: usize = 24;

/// How an ASCII code is written.
///
/// The default is form A with 3 digits and Z, as `2016-12-31T23:59:60.000Z`.
#[derive(Clone, Copy, PartialEq, Eq, Debug, Hash)]
pub struct AsciiSetting {
    /// False: the date is YYYY-MM-DD, which is form A. True: it is YYYY-DDD, which is form B.
    pub day_of_year: bool,
    /// Digits of the fraction, 0 to 12. With 0 there is no period either.
    pub digits: u8,
    /// Whether Z is written at the end.
    pub z: bool,
}

impl Default for AsciiSetting {
    fn default() -> AsciiSetting {
        AsciiSetting {
            day_of_year: false,
            digits: 3,
            z: true,
        }
    }
}

/// The moment of an ASCII code, which is the whole text.
///
/// A code is YYYY-MM-DD or YYYY-DDD; T; hh:mm:ss; then, or not, a period and 1 to 12 digits; then, or not, Z.
/// T and Z are capitals. Nothing stands before, between or after these, and no blank is skipped. The time is
/// UTC, with Z or without. [`write_ascii`] of the moment, in the form, with the digits and with the Z of the
/// text, gives the same bytes.
///
/// Refused with the first of these that holds: [`Refusal::Short`] when the text is empty;
/// [`Refusal::Field`] when it has another shape, as with 13 digits, when there is no such date in the years
/// 0001 to 9999, or when the hour, the minute or the second is out of range (second 60 is in range at 23:59
/// alone); [`Refusal::Uncovered`] when the UTC day is outside the table of leap seconds;
/// [`Refusal::NoSuchSecond`] for a second 60 on a UTC day that does not end with a leap second.
///
/// ```
/// use honigzange::{read_ascii, Record, Refusal};
///
/// let known = Record { sec: 948_216_067, ticks: 505_675_776_000_000 };
/// assert_eq!(read_ascii(b"1988-018T17:20:43.123456Z"), Ok(known));
/// assert_eq!(read_ascii(b"1988-01-18T17:20:43.123456"), Ok(known));
///
/// let leap = Record { sec: 1_861_920_036, ticks: 0 };
/// assert_eq!(read_ascii(b"2016-12-31T23:59:60"), Ok(leap));
/// assert_eq!(read_ascii(b"2015-12-31T23:59:60"), Err(Refusal::NoSuchSecond));
/// assert_eq!(read_ascii(b"2016-12-31T12:00:60"), Err(Refusal::Field));
/// assert_eq!(read_ascii(b"2016-12-31T23:59:60 "), Err(Refusal::Field));
/// assert_eq!(read_ascii(b"2026-01-01T00:00:00"), Err(Refusal::Uncovered));
/// assert_eq!(read_ascii(b""), Err(Refusal::Short));
/// ```
pub fn read_ascii(text: &[u8]) -> Result<Record, Refusal> {
    let mut record = Record { sec: 0, ticks: 0 };
    let number = raw::read_ascii(text, &mut record.sec, &mut record.ticks);
    answer(number, record)
}

/// Writes the ASCII code of a moment to the first bytes of `out` and answers how many they are. Later bytes
/// stay as they were.
///
/// What the digits can't hold of the fraction is dropped, never rounded up: the code shows the latest time it
/// can that is not after the moment, and [`read_ascii`] of it gives that time. A room of [`ASCII_ROOM`] is
/// always enough. After a refusal all of `out` is as it was.
///
/// Refused with the first of these that holds: [`Refusal::Range`] when the record is invalid;
/// [`Refusal::Unsupported`] when the digits are over 12; [`Refusal::Uncovered`] when the moment is outside
/// the table of leap seconds; [`Refusal::Room`] when `out` is shorter than the code.
///
/// ```
/// use honigzange::{read_binary, write_ascii, AsciiSetting, Preamble, Refusal, ASCII_ROOM};
///
/// // 1988-018T17:20:43.123456 came as CUC with one fine octet, in which 31/256 is left of the fraction.
/// let cuc = [0x1D, 0x38, 0x84, 0xA1, 0x03, 0x1F];
/// let (record, _) = read_binary(&cuc, Preamble::Front, 0)?;
/// let setting = AsciiSetting { day_of_year: true, digits: 6, z: true };
/// let mut out = [0; ASCII_ROOM];
/// let written = write_ascii(record, setting, &mut out)?;
/// assert_eq!(&out[..written], b"1988-018T17:20:43.121093Z");
///
/// let whole = AsciiSetting { day_of_year: false, digits: 0, z: false };
/// let written = write_ascii(record, whole, &mut out)?;
/// assert_eq!(&out[..written], b"1988-01-18T17:20:43");
///
/// let finer = AsciiSetting { digits: 13, ..setting };
/// assert_eq!(write_ascii(record, finer, &mut out), Err(Refusal::Unsupported));
/// assert_eq!(write_ascii(record, whole, &mut out[..18]), Err(Refusal::Room));
/// # Ok::<(), Refusal>(())
/// ```
pub fn write_ascii(
    record: Record,
    setting: AsciiSetting,
    out: &mut [u8],
) -> Result<usize, Refusal> {
    let Record { sec, ticks } = record;
    let AsciiSetting {
        day_of_year,
        digits,
        z,
    } = setting;
    let mut written = 0;
    let number = raw::write_ascii(sec, ticks, day_of_year, digits, z, out, &mut written);
    answer(number, written)
}

/// Writes the text of a moment for a wall clock, as [`write_ascii`] does in the default setting: form A, 3
/// digits and Z. That is [`WALL_ROOM`] bytes.
///
/// Refused with the first of these that holds: [`Refusal::Range`] when the record is invalid;
/// [`Refusal::Uncovered`] when the moment is outside the table of leap seconds; [`Refusal::Room`] when `out`
/// is shorter than [`WALL_ROOM`].
///
/// ```
/// use honigzange::{write_wall, Record, Refusal, WALL_ROOM};
///
/// // The last tick of a leap second is in that second still.
/// let last = Record { sec: 1_861_920_036, ticks: Record::TICKS - 1 };
/// let mut face = [0; WALL_ROOM];
/// assert_eq!(write_wall(last, &mut face), Ok(WALL_ROOM));
/// assert_eq!(&face, b"2016-12-31T23:59:60.999Z");
/// assert_eq!(write_wall(last, &mut face[1..]), Err(Refusal::Room));
/// ```
pub fn write_wall(record: Record, out: &mut [u8]) -> Result<usize, Refusal> {
    let mut written = 0;
    let number = raw::write_wall(record.sec, record.ticks, out, &mut written);
    answer(number, written)
}
