//! The crate chrono: it keeps a second 60 apart from its neighbours, but takes one in any minute of any day, and
//! there is no table.

use chrono::{DateTime, NaiveDateTime, SecondsFormat, Utc};

const TICKS_OF_NANOSECOND: u64 = 4_096_000;

#[no_mangle]
pub unsafe extern "C" fn peer_read(
    text: *const u8,
    len: usize,
    sec: &mut i64,
    ticks: &mut u64,
) -> u8 {
    let text = std::slice::from_raw_parts(text, len);
    let Ok(text) = std::str::from_utf8(text) else {
        return 1;
    };
    let Ok(time) = DateTime::parse_from_rfc3339(text) else {
        return 1;
    };
    *sec = time.timestamp();
    *ticks = u64::from(time.timestamp_subsec_nanos()) * TICKS_OF_NANOSECOND;
    0
}

#[no_mangle]
pub unsafe extern "C" fn peer_write(
    sec: i64,
    ticks: u64,
    out: *mut u8,
    room: usize,
    written: &mut usize,
) -> u8 {
    let out = std::slice::from_raw_parts_mut(out, room);
    let Some(time) = NaiveDateTime::from_timestamp_opt(sec, (ticks / TICKS_OF_NANOSECOND) as u32)
    else {
        return 1;
    };
    let time = DateTime::<Utc>::from_utc(time, Utc);
    let text = time.to_rfc3339_opts(SecondsFormat::Millis, true);
    let Some(out) = out.get_mut(..text.len()) else {
        return 1;
    };
    out.copy_from_slice(text.as_bytes());
    *written = text.len();
    0
}
