//! The C interface as it is, made safe: each call answers 0 or a refusal number, writes its result cells
//! only with the answer 0, and otherwise leaves them as they were.
//!
//! The calls at the crate's root say the same with [`Result`], but `rates`, which is never refused.

use crate::drift::Pair;
use crate::receiver::Row;

mod c {
    use super::{Pair, Receiver, Report, Row};

    extern "C" {
        pub fn hz_difference(
            a_sec: i64,
            a_ticks: u64,
            b_sec: i64,
            b_ticks: u64,
            sec: *mut i64,
            ticks: *mut u64,
        ) -> u8;
        pub fn hz_shift(
            sec: i64,
            ticks: u64,
            by_sec: i64,
            by_ticks: u64,
            to_sec: *mut i64,
            to_ticks: *mut u64,
        ) -> u8;
        pub fn hz_day_of_date(year: u64, month: u64, day: u64, number: *mut i64) -> u8;
        pub fn hz_date_of_day(number: i64, year: *mut u64, month: *mut u64, day: *mut u64) -> u8;
        pub fn hz_day_of_ordinal(year: u64, day: u64, number: *mut i64) -> u8;
        pub fn hz_ordinal_of_day(number: i64, year: *mut u64, day: *mut u64) -> u8;
        pub fn hz_utc_of_second(
            sec: i64,
            day: *mut i64,
            second_of_day: *mut u64,
            offset: *mut i64,
        ) -> u8;
        pub fn hz_second_of_utc(day: i64, second_of_day: u64, sec: *mut i64) -> u8;
        pub fn hz_read_binary(
            bytes: *const u8,
            len: usize,
            front: bool,
            p: u8,
            epoch: i64,
            sec: *mut i64,
            ticks: *mut u64,
            used: *mut usize,
        ) -> u8;
        pub fn hz_write_binary(
            sec: i64,
            ticks: u64,
            front: bool,
            p: u8,
            epoch: i64,
            out: *mut u8,
            room: usize,
            written: *mut usize,
        ) -> u8;
        pub fn hz_receiver_make(p: u8, epoch: i64, receiver: *mut Receiver) -> u8;
        pub fn hz_receive(
            receiver: *mut Receiver,
            piece: *const u8,
            len: usize,
            rows: *mut Row,
            room: usize,
            count: *mut usize,
        ) -> u8;
        pub fn hz_read_ascii(text: *const u8, len: usize, sec: *mut i64, ticks: *mut u64) -> u8;
        pub fn hz_write_ascii(
            sec: i64,
            ticks: u64,
            day_of_year: bool,
            digits: u8,
            z: bool,
            out: *mut u8,
            room: usize,
            written: *mut usize,
        ) -> u8;
        pub fn hz_write_wall(
            sec: i64,
            ticks: u64,
            out: *mut u8,
            room: usize,
            written: *mut usize,
        ) -> u8;
        pub fn hz_list_cuc(
            tag: *const u8,
            len: usize,
            front: bool,
            p: u8,
            epoch: i64,
            from_sec: i64,
            from_ticks: u64,
            to_sec: i64,
            to_ticks: u64,
            list: *mut i64,
            room: usize,
            ticks: *mut u64,
            count: *mut usize,
            more: *mut bool,
        ) -> u8;
        pub fn hz_list_ascii(
            tag: *const u8,
            len: usize,
            from_sec: i64,
            from_ticks: u64,
            to_sec: i64,
            to_ticks: u64,
            list: *mut i64,
            room: usize,
            ticks: *mut u64,
            count: *mut usize,
            more: *mut bool,
        ) -> u8;
        pub fn hz_rate(
            onboard_sec: i64,
            onboard_ticks: u64,
            ground_sec: i64,
            ground_ticks: u64,
            then_onboard_sec: i64,
            then_onboard_ticks: u64,
            then_ground_sec: i64,
            then_ground_ticks: u64,
            num: *mut i64,
            den: *mut u64,
        ) -> u8;
        pub fn hz_rates(run: *const Pair, len: usize, report: *mut Report) -> u8;
    }
}

/// A receiver as the calls keep it: octets alone. One that no call made is refused.
#[derive(Clone, Copy, PartialEq, Eq, Debug, Hash)]
#[repr(C)]
pub struct Receiver {
    /// The P octet.
    pub p: u8,
    /// The epoch, signed, big-endian.
    pub epoch: [u8; 8],
    /// How many octets are pending.
    pub count: u8,
    /// These octets, and zeros behind them.
    pub pending: [u8; 12],
}

impl Receiver {
    /// Before a call makes one: 22 zeros, which are refused with 2.
    pub const NONE: Receiver = Receiver {
        p: 0,
        epoch: [0; 8],
        count: 0,
        pending: [0; 12],
    };
}

/// A rate of a run and its place, as it stands in a [`Report`]. A denominator 0 is no rate.
#[derive(Clone, Copy, PartialEq, Eq, Debug, Hash)]
#[repr(C)]
pub struct Extreme {
    /// The numerator.
    pub num: i64,
    /// The denominator.
    pub den: u64,
    /// The first place among all neighbouring twos, from 0.
    pub place: u64,
}

/// The report on a run of pairs as the call writes it.
#[derive(Clone, Copy, PartialEq, Eq, Debug, Hash)]
#[repr(C)]
pub struct Report {
    /// Twos that have a rate.
    pub rates: u64,
    /// Twos refused with 7.
    pub range: u64,
    /// Twos refused with 10.
    pub not_elapsed: u64,
    /// Twos refused with 11.
    pub off_grid: u64,
    /// The smallest rate.
    pub smallest: Extreme,
    /// The largest rate.
    pub largest: Extreme,
}

impl Report {
    /// The report on a run without twos.
    pub const NONE: Report = {
        let nothing = Extreme {
            num: 0,
            den: 0,
            place: 0,
        };
        Report {
            rates: 0,
            range: 0,
            not_elapsed: 0,
            off_grid: 0,
            smallest: nothing,
            largest: nothing,
        }
    };
}

/// The span a - b.
pub fn difference(
    a_sec: i64,
    a_ticks: u64,
    b_sec: i64,
    b_ticks: u64,
    sec: &mut i64,
    ticks: &mut u64,
) -> u8 {
    // SAFETY: numbers may hold anything, and two exclusive references are two cells apart.
    unsafe { c::hz_difference(a_sec, a_ticks, b_sec, b_ticks, sec, ticks) }
}

/// The record that lies a span after another.
pub fn shift(
    sec: i64,
    ticks: u64,
    by_sec: i64,
    by_ticks: u64,
    to_sec: &mut i64,
    to_ticks: &mut u64,
) -> u8 {
    // SAFETY: numbers may hold anything, and two exclusive references are two cells apart.
    unsafe { c::hz_shift(sec, ticks, by_sec, by_ticks, to_sec, to_ticks) }
}

/// The day number of a date.
pub fn day_of_date(year: u64, month: u64, day: u64, number: &mut i64) -> u8 {
    // SAFETY: numbers may hold anything, and an exclusive reference is a cell.
    unsafe { c::hz_day_of_date(year, month, day, number) }
}

/// The date of a day number.
pub fn date_of_day(number: i64, year: &mut u64, month: &mut u64, day: &mut u64) -> u8 {
    // SAFETY: numbers may hold anything, and three exclusive references are three cells apart.
    unsafe { c::hz_date_of_day(number, year, month, day) }
}

/// The day number of a day of a year.
pub fn day_of_ordinal(year: u64, day: u64, number: &mut i64) -> u8 {
    // SAFETY: numbers may hold anything, and an exclusive reference is a cell.
    unsafe { c::hz_day_of_ordinal(year, day, number) }
}

/// The year and day of the year of a day number.
pub fn ordinal_of_day(number: i64, year: &mut u64, day: &mut u64) -> u8 {
    // SAFETY: numbers may hold anything, and two exclusive references are two cells apart.
    unsafe { c::hz_ordinal_of_day(number, year, day) }
}

/// The UTC reading of a TAI second.
pub fn utc_of_second(sec: i64, day: &mut i64, second_of_day: &mut u64, offset: &mut i64) -> u8 {
    // SAFETY: numbers may hold anything, and three exclusive references are three cells apart.
    unsafe { c::hz_utc_of_second(sec, day, second_of_day, offset) }
}

/// The TAI second of a UTC reading.
pub fn second_of_utc(day: i64, second_of_day: u64, sec: &mut i64) -> u8 {
    // SAFETY: numbers may hold anything, and an exclusive reference is a cell.
    unsafe { c::hz_second_of_utc(day, second_of_day, sec) }
}

/// The moment of a binary code, and how many of the bytes are the code's.
pub fn read_binary(
    bytes: &[u8],
    front: bool,
    p: u8,
    epoch: i64,
    sec: &mut i64,
    ticks: &mut u64,
    used: &mut usize,
) -> u8 {
    let (start, len) = (bytes.as_ptr(), bytes.len());
    // SAFETY: numbers may hold anything, the bytes are as many as said, and three exclusive references are
    // three cells apart from each other and from the bytes.
    unsafe { c::hz_read_binary(start, len, front, p, epoch, sec, ticks, used) }
}

/// The binary code of a moment, and how many bytes it has.
pub fn write_binary(
    sec: i64,
    ticks: u64,
    front: bool,
    p: u8,
    epoch: i64,
    out: &mut [u8],
    written: &mut usize,
) -> u8 {
    let (start, room) = (out.as_mut_ptr(), out.len());
    // SAFETY: numbers may hold anything, the bytes are as many as said, and an exclusive reference is a cell
    // apart from them.
    unsafe { c::hz_write_binary(sec, ticks, front, p, epoch, start, room, written) }
}

/// A receiver that holds nothing yet.
pub fn receiver_make(p: u8, epoch: i64, receiver: &mut Receiver) -> u8 {
    // SAFETY: numbers may hold anything, and an exclusive reference is a receiver, laid out as the header's struct.
    unsafe { c::hz_receiver_make(p, epoch, receiver) }
}

/// A row for each T-field that a piece completes, how many they are, and the receiver for the next piece.
pub fn receive(receiver: &mut Receiver, piece: &[u8], rows: &mut [Row], count: &mut usize) -> u8 {
    let (bytes, len) = (piece.as_ptr(), piece.len());
    let (start, room) = (rows.as_mut_ptr(), rows.len());
    // SAFETY: a receiver may hold anything, the bytes and the rows are as many as said, two exclusive references
    // are a receiver and a cell apart from each other and from them, and receiver and rows are laid out as the
    // header's structs.
    unsafe { c::hz_receive(receiver, bytes, len, start, room, count) }
}

/// The moment of an ASCII code, which is the whole text.
pub fn read_ascii(text: &[u8], sec: &mut i64, ticks: &mut u64) -> u8 {
    // SAFETY: the bytes are as many as said, and two exclusive references are two cells apart from each other
    // and from the bytes.
    unsafe { c::hz_read_ascii(text.as_ptr(), text.len(), sec, ticks) }
}

/// The ASCII code of a moment, and how many bytes it has.
pub fn write_ascii(
    sec: i64,
    ticks: u64,
    day_of_year: bool,
    digits: u8,
    z: bool,
    out: &mut [u8],
    written: &mut usize,
) -> u8 {
    let (start, room) = (out.as_mut_ptr(), out.len());
    // SAFETY: numbers may hold anything, the bytes are as many as said, and an exclusive reference is a cell
    // apart from them.
    unsafe { c::hz_write_ascii(sec, ticks, day_of_year, digits, z, start, room, written) }
}

/// The text of a moment for a wall clock, and how many bytes it has.
pub fn write_wall(sec: i64, ticks: u64, out: &mut [u8], written: &mut usize) -> u8 {
    let (start, room) = (out.as_mut_ptr(), out.len());
    // SAFETY: numbers may hold anything, the bytes are as many as said, and an exclusive reference is a cell
    // apart from them.
    unsafe { c::hz_write_wall(sec, ticks, start, room, written) }
}

/// The seconds of the moments of a window that a CUC tag names, how many are listed, and whether there are
/// more.
#[allow(clippy::too_many_arguments)]
pub fn list_cuc(
    tag: &[u8],
    front: bool,
    p: u8,
    epoch: i64,
    from_sec: i64,
    from_ticks: u64,
    to_sec: i64,
    to_ticks: u64,
    list: &mut [i64],
    ticks: &mut u64,
    count: &mut usize,
    more: &mut bool,
) -> u8 {
    let (bytes, len) = (tag.as_ptr(), tag.len());
    let (start, room) = (list.as_mut_ptr(), list.len());
    // SAFETY: numbers may hold anything, the bytes and the list's elements are as many as said, and three
    // exclusive references are three cells apart from each other and from them.
    unsafe {
        c::hz_list_cuc(
            bytes, len, front, p, epoch, from_sec, from_ticks, to_sec, to_ticks, start, room,
            ticks, count, more,
        )
    }
}

/// The seconds of the moments of a window that an ASCII tag names, how many are listed, and whether there are
/// more.
#[allow(clippy::too_many_arguments)]
pub fn list_ascii(
    tag: &[u8],
    from_sec: i64,
    from_ticks: u64,
    to_sec: i64,
    to_ticks: u64,
    list: &mut [i64],
    ticks: &mut u64,
    count: &mut usize,
    more: &mut bool,
) -> u8 {
    let (bytes, len) = (tag.as_ptr(), tag.len());
    let (start, room) = (list.as_mut_ptr(), list.len());
    // SAFETY: numbers may hold anything, the bytes and the list's elements are as many as said, and three
    // exclusive references are three cells apart from each other and from them.
    unsafe {
        c::hz_list_ascii(
            bytes, len, from_sec, from_ticks, to_sec, to_ticks, start, room, ticks, count, more,
        )
    }
}

/// The rate from one pair to another.
#[allow(clippy::too_many_arguments)]
pub fn rate(
    onboard_sec: i64,
    onboard_ticks: u64,
    ground_sec: i64,
    ground_ticks: u64,
    then_onboard_sec: i64,
    then_onboard_ticks: u64,
    then_ground_sec: i64,
    then_ground_ticks: u64,
    num: &mut i64,
    den: &mut u64,
) -> u8 {
    // SAFETY: numbers may hold anything, and two exclusive references are two cells apart.
    unsafe {
        c::hz_rate(
            onboard_sec,
            onboard_ticks,
            ground_sec,
            ground_ticks,
            then_onboard_sec,
            then_onboard_ticks,
            then_ground_sec,
            then_ground_ticks,
            num,
            den,
        )
    }
}

/// The report on a run of pairs.
pub fn rates(run: &[Pair], report: &mut Report) -> u8 {
    let (start, len) = (run.as_ptr(), run.len());
    // SAFETY: numbers may hold anything, the pairs are as many as said, an exclusive reference is a report apart
    // from them, and both are laid out as the header's structs.
    unsafe { c::hz_rates(start, len, report) }
}
