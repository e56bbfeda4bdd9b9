//! The second program's calls with the arguments and answers of the library's: `second_X` for `hz_X`.
//! Pointers are as include/honigzange.h has them.

#![allow(clippy::missing_safety_doc, clippy::too_many_arguments)]

use second::ascii::{Setting, Text, DEFAULT};
use second::listing::Listing;
use second::{ascii, ascii_tag, binary, calendar, cuc_tag, drift, leap, receiver, scale};
use std::slice;

/// Hands a call's values on to the cells, or its refusal number to the caller.
fn done<T>(answer: Result<T, u8>, store: impl FnOnce(T)) -> u8 {
    match answer {
        Ok(values) => {
            store(values);
            0
        }
        Err(number) => number,
    }
}

#[no_mangle]
pub extern "C" fn second_difference(
    a_sec: i64,
    a_ticks: u64,
    b_sec: i64,
    b_ticks: u64,
    sec: &mut i64,
    ticks: &mut u64,
) -> u8 {
    done(scale::difference(a_sec, a_ticks, b_sec, b_ticks), |span| {
        (*sec, *ticks) = span
    })
}

#[no_mangle]
pub extern "C" fn second_shift(
    sec: i64,
    ticks: u64,
    by_sec: i64,
    by_ticks: u64,
    to_sec: &mut i64,
    to_ticks: &mut u64,
) -> u8 {
    done(scale::shift(sec, ticks, by_sec, by_ticks), |record| {
        (*to_sec, *to_ticks) = record
    })
}

#[no_mangle]
pub extern "C" fn second_day_of_date(year: u64, month: u64, day: u64, number: &mut i64) -> u8 {
    done(calendar::day_of_date(year, month, day), |day| *number = day)
}

#[no_mangle]
pub extern "C" fn second_date_of_day(
    number: i64,
    year: &mut u64,
    month: &mut u64,
    day: &mut u64,
) -> u8 {
    done(calendar::date_of_day(number), |date| {
        (*year, *month, *day) = date
    })
}

#[no_mangle]
pub extern "C" fn second_day_of_ordinal(year: u64, day: u64, number: &mut i64) -> u8 {
    done(calendar::day_of_ordinal(year, day), |day| *number = day)
}

#[no_mangle]
pub extern "C" fn second_ordinal_of_day(number: i64, year: &mut u64, day: &mut u64) -> u8 {
    done(calendar::ordinal_of_day(number), |ordinal| {
        (*year, *day) = ordinal
    })
}

#[no_mangle]
pub extern "C" fn second_utc_of_second(
    sec: i64,
    day: &mut i64,
    second_of_day: &mut u64,
    offset: &mut i64,
) -> u8 {
    done(leap::utc_of_second(sec), |utc| {
        (*day, *second_of_day, *offset) = utc
    })
}

#[no_mangle]
pub extern "C" fn second_second_of_utc(day: i64, second_of_day: u64, sec: &mut i64) -> u8 {
    done(leap::second_of_utc(day, second_of_day), |second| {
        *sec = second
    })
}

#[no_mangle]
pub unsafe extern "C" fn second_read_binary(
    bytes: *const u8,
    len: usize,
    front: bool,
    p: u8,
    epoch: i64,
    sec: &mut i64,
    ticks: &mut u64,
    used: &mut usize,
) -> u8 {
    let bytes = slice::from_raw_parts(bytes, len);
    done(binary::read(bytes, front, p, epoch), |code| {
        (*sec, *ticks, *used) = code
    })
}

#[no_mangle]
pub unsafe extern "C" fn second_write_binary(
    sec: i64,
    ticks: u64,
    front: bool,
    p: u8,
    epoch: i64,
    out: *mut u8,
    room: usize,
    written: &mut usize,
) -> u8 {
    let out = slice::from_raw_parts_mut(out, room);
    done(binary::write(sec, ticks, front, p, epoch, room), |code| {
        out[..code.len()].copy_from_slice(&code);
        *written = code.len();
    })
}

#[no_mangle]
pub unsafe extern "C" fn second_read_ascii(
    text: *const u8,
    len: usize,
    sec: &mut i64,
    ticks: &mut u64,
) -> u8 {
    done(ascii::read(slice::from_raw_parts(text, len)), |record| {
        (*sec, *ticks) = record
    })
}

#[no_mangle]
pub unsafe extern "C" fn second_write_ascii(
    sec: i64,
    ticks: u64,
    by_day_of_year: bool,
    digits: u8,
    z: bool,
    out: *mut u8,
    room: usize,
    written: &mut usize,
) -> u8 {
    let setting = Setting {
        by_day_of_year,
        digits,
        z,
    };
    let out = slice::from_raw_parts_mut(out, room);
    done(ascii::write(sec, ticks, setting, room), |text| {
        *written = copy(&text, out)
    })
}

#[no_mangle]
pub unsafe extern "C" fn second_write_wall(
    sec: i64,
    ticks: u64,
    out: *mut u8,
    room: usize,
    written: &mut usize,
) -> u8 {
    let out = slice::from_raw_parts_mut(out, room);
    done(ascii::write(sec, ticks, DEFAULT, room), |text| {
        *written = copy(&text, out)
    })
}

fn copy(text: &Text, out: &mut [u8]) -> usize {
    let bytes = text.as_bytes();
    out[..bytes.len()].copy_from_slice(bytes);
    bytes.len()
}

#[no_mangle]
pub unsafe extern "C" fn second_list_cuc(
    tag: *const u8,
    len: usize,
    front: bool,
    p: u8,
    epoch: i64,
    from_sec: i64,
    from_ticks: u64,
    to_sec: i64,
    to_ticks: u64,
    list: *mut i64,
    room: usize,
    ticks: &mut u64,
    count: &mut usize,
    more: &mut bool,
) -> u8 {
    let (from, to) = ((from_sec, from_ticks), (to_sec, to_ticks));
    let listing = cuc_tag::list(
        slice::from_raw_parts(tag, len),
        front,
        p,
        epoch,
        from,
        to,
        room,
    );
    let list = slice::from_raw_parts_mut(list, room);
    done(listing, |listing| {
        (*ticks, *count, *more) = lent(&listing, list)
    })
}

#[no_mangle]
pub unsafe extern "C" fn second_list_ascii(
    tag: *const u8,
    len: usize,
    from_sec: i64,
    from_ticks: u64,
    to_sec: i64,
    to_ticks: u64,
    list: *mut i64,
    room: usize,
    ticks: &mut u64,
    count: &mut usize,
    more: &mut bool,
) -> u8 {
    let (from, to) = ((from_sec, from_ticks), (to_sec, to_ticks));
    let listing = ascii_tag::list(slice::from_raw_parts(tag, len), from, to, room);
    let list = slice::from_raw_parts_mut(list, room);
    done(listing, |listing| {
        (*ticks, *count, *more) = lent(&listing, list)
    })
}

fn lent(listing: &Listing, list: &mut [i64]) -> (u64, usize, bool) {
    let count = listing.secs.len();
    list[..count].copy_from_slice(&listing.secs);
    (listing.ticks, count, listing.more)
}

#[no_mangle]
pub extern "C" fn second_rate(
    onboard_sec: i64,
    onboard_ticks: u64,
    ground_sec: i64,
    ground_ticks: u64,
    then_onboard_sec: i64,
    then_onboard_ticks: u64,
    then_ground_sec: i64,
    then_ground_ticks: u64,
    num: &mut i64,
    den: &mut u64,
) -> u8 {
    let first = [(onboard_sec, onboard_ticks), (ground_sec, ground_ticks)];
    let second = [
        (then_onboard_sec, then_onboard_ticks),
        (then_ground_sec, then_ground_ticks),
    ];
    done(drift::rate(first, second), |rate| (*num, *den) = rate)
}

/// A pair, an extreme and a report as include/honigzange.h has them.
#[repr(C)]
pub struct Pair {
    onboard_sec: i64,
    onboard_ticks: u64,
    ground_sec: i64,
    ground_ticks: u64,
}

#[repr(C)]
pub struct Extreme {
    num: i64,
    den: u64,
    place: u64,
}

#[repr(C)]
pub struct Report {
    rates: u64,
    range: u64,
    not_elapsed: u64,
    off_grid: u64,
    smallest: Extreme,
    largest: Extreme,
}

#[no_mangle]
pub unsafe extern "C" fn second_rates(run: *const Pair, len: usize, report: &mut Report) -> u8 {
    let plain = |pair: &Pair| {
        [
            (pair.onboard_sec, pair.onboard_ticks),
            (pair.ground_sec, pair.ground_ticks),
        ]
    };
    let run = slice::from_raw_parts(run, len).iter().map(plain);
    let told = drift::report(&run.collect::<Vec<_>>());
    let extreme = |told: Option<(drift::Fraction, usize)>| {
        let ((num, den), place) = told.unwrap_or(((0, 0), 0));
        let place = place as u64;
        Extreme { num, den, place }
    };
    *report = Report {
        rates: told.rates as u64,
        range: told.range as u64,
        not_elapsed: told.not_elapsed as u64,
        off_grid: told.off_grid as u64,
        smallest: extreme(told.smallest),
        largest: extreme(told.largest),
    };
    0
}

/// A receiver's octets, and a row, as include/honigzange.h has them.
pub type Receiver = receiver::State;

#[repr(C)]
pub struct Row {
    refusal: u64,
    sec: i64,
    ticks: u64,
}

#[no_mangle]
pub extern "C" fn second_receiver_make(p: u8, epoch: i64, receiver: &mut Receiver) -> u8 {
    done(receiver::make(p, epoch), |made| *receiver = made)
}

#[no_mangle]
pub unsafe extern "C" fn second_receive(
    receiver: &mut Receiver,
    piece: *const u8,
    len: usize,
    rows: *mut Row,
    room: usize,
    count: &mut usize,
) -> u8 {
    let piece = slice::from_raw_parts(piece, len);
    let rows = slice::from_raw_parts_mut(rows, room);
    done(receiver::receive(*receiver, piece, room), |(next, told)| {
        (*receiver, *count) = (next, told.len());
        for (row, (refusal, sec, ticks)) in rows.iter_mut().zip(told) {
            *row = Row {
                refusal,
                sec,
                ticks,
            };
        }
    })
}
