//! The crate humantime: POSIX time, so a leap second is read as the second before it, and there is no table.

use std::io::Write;
use std::time::{Duration, UNIX_EPOCH};

const TICKS_OF_NANOSECOND: u64 = 4_096_000;

#[no_mangle]
pub unsafe extern "C" fn peer_read(
    text: *const u8,
    len: usize,
    sec: &mut i64,
    ticks: &mut u64,
) -> u8 {
    let text = std::slice::from_raw_parts(text, len);
    let Ok(text) = std::str::from_utf8(text) else {
        return 1;
    };
    let Ok(time) = humantime::parse_rfc3339(text) else {
        return 1;
    };
    let Ok(since) = time.duration_since(UNIX_EPOCH) else {
        return 1;
    };
    *sec = since.as_secs() as i64;
    *ticks = u64::from(since.subsec_nanos()) * TICKS_OF_NANOSECOND;
    0
}

#[no_mangle]
pub unsafe extern "C" fn peer_write(
    sec: i64,
    ticks: u64,
    out: *mut u8,
    room: usize,
    written: &mut usize,
) -> u8 {
    let mut out = std::slice::from_raw_parts_mut(out, room);
    let since = Duration::new(sec as u64, (ticks / TICKS_OF_NANOSECOND) as u32);
    let text = humantime::format_rfc3339_millis(UNIX_EPOCH + since);
    if write!(out, "{text}").is_err() {
        return 1;
    }
    *written = room - out.len();
    0
}
