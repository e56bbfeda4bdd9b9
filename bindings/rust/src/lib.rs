//! CCSDS 301.0-B-4 time codes on one exact scale: the safe calls over the proved library.
//!
//! No call allocates, keeps state of its own, panics or rounds: a code that cannot hold the whole of a fraction has it
//! taken downward. A call that cannot answer says why with a [`Refusal`].
//!
//! The table of leap seconds covers the UTC days 1972-01-01 to 2025-12-31 and no others. A call that needs
//! UTC outside them, as a clock of 2026 does, is refused with [`Refusal::Uncovered`]: nothing is
//! extrapolated.
//!
//! The package has no dependency and needs no `std`. Unsafe code stands in [`raw`] alone, whose calls are
//! safe: the declarations of the C interface, and a call of each.
//!
//! ```
//! use honigzange::{day_of_date, difference, second_of_utc, shift, Date, Record, Span};
//!
//! // 2016-12-31T23:59:59 and 2017-01-01T00:00:00 UTC: a leap second lies between them.
//! let day = day_of_date(Date { year: 2016, month: 12, day: 31 })?;
//! let before = Record { sec: second_of_utc(day, 86_399)?, ticks: 0 };
//! let after = Record { sec: second_of_utc(day + 1, 0)?, ticks: 0 };
//! let apart = difference(after, before)?;
//! assert_eq!(apart, Span { sec: 2, ticks: 0 });
//! assert_eq!(shift(before, apart)?, after);
//! # Ok::<(), honigzange::Refusal>(())
//! ```
//!
//! ```
//! use honigzange::{read_binary, write_binary, BinarySetting, Preamble, BINARY_ROOM};
//!
//! // 2016-12-31T23:59:60 UTC came as CDS, and goes on as CUC with four coarse octets.
//! let link = [0x40, 0x54, 0x2D, 0x05, 0x26, 0x5C, 0x00];
//! let (record, unread) = read_binary(&link, Preamble::Front, 0)?;
//! assert!(unread.is_empty());
//! let mut code = [0; BINARY_ROOM];
//! let setting = BinarySetting { p: 0x1C, epoch: 0, front: true };
//! let written = write_binary(record, setting, &mut code)?;
//! assert_eq!(code[..written], [0x1C, 0x6E, 0xFA, 0xA5, 0x24]);
//! # Ok::<(), honigzange::Refusal>(())
//! ```
//!
//! ```
//! use honigzange::{read_ascii, write_wall, WALL_ROOM};
//!
//! // An operator's text, with the day of the year, goes to the wall.
//! let record = read_ascii(b"1988-018T17:20:43.123456Z")?;
//! let mut face = [0; WALL_ROOM];
//! let written = write_wall(record, &mut face)?;
//! assert_eq!(&face[..written], b"1988-01-18T17:20:43.123Z");
//! # Ok::<(), honigzange::Refusal>(())
//! ```
//!
//! ```
//! use honigzange::{list_ascii, read_ascii};
//!
//! // The leap seconds of four years, by a tag without date, hour and minute.
//! let (from, to) = (read_ascii(b"2013-01-01T00:00:00")?, read_ascii(b"2017-01-01T00:00:00")?);
//! let mut leaps = [0; 8];
//! let listing = list_ascii(b"::60", from, to, &mut leaps)?;
//! assert_eq!(leaps[..listing.count], [1_814_400_035, 1_861_920_036]);
//! assert!(!listing.more);
//! # Ok::<(), honigzange::Refusal>(())
//! ```

#![no_std]
#![deny(unsafe_code)]
#![deny(missing_docs)]

#[forbid(unsafe_code)]
mod ascii;
#[forbid(unsafe_code)]
mod binary;
#[forbid(unsafe_code)]
mod calendar;
#[forbid(unsafe_code)]
mod drift;
#[forbid(unsafe_code)]
mod leap;
#[allow(unsafe_code)]
pub mod raw;
#[forbid(unsafe_code)]
mod receiver;
#[forbid(unsafe_code)]
mod refusal;
#[forbid(unsafe_code)]
mod scale;
#[forbid(unsafe_code)]
mod setting;
#[forbid(unsafe_code)]
mod tags;

pub use ascii::{read_ascii, write_ascii, write_wall, AsciiSetting, ASCII_ROOM, WALL_ROOM};
pub use binary::{read_binary, write_binary, BinarySetting, Preamble, BINARY_ROOM};
pub use calendar::{
    date_of_day, day_of_date, day_of_ordinal, ordinal_of_day, Date, Ordinal, FIRST_DAY, LAST_DAY,
};
pub use drift::{rate, rates, Extreme, Pair, Rate, Report};
pub use leap::{second_of_utc, utc_of_second, Utc, COVER_END, COVER_START};
pub use receiver::{Receiver, Row};
pub use refusal::Refusal;
pub use scale::{difference, shift, Record, Span};
pub use setting::{write, Setting};
pub use tags::{list_ascii, list_cuc, Listing};
