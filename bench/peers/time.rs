//! The crate time: no leap second can be read or written, and there is no table.

use std::sync::LazyLock;
use time::format_description::{self, well_known::Rfc3339, FormatItem};
use time::OffsetDateTime;

const TICKS_OF_NANOSECOND: u64 = 4_096_000;
const NANOSECONDS: i128 = 1_000_000_000;

/// Rfc3339 writes as many digits as a moment has.
static MILLISECONDS: LazyLock<Vec<FormatItem>> = LazyLock::new(|| {
    let format = "[year]-[month]-[day]T[hour]:[minute]:[second].[subsecond digits:3]Z";
    format_description::parse(format).expect("a format")
});

#[no_mangle]
pub extern "C" fn peer_begin() {
    LazyLock::force(&MILLISECONDS);
}

#[no_mangle]
pub unsafe extern "C" fn peer_read(
    text: *const u8,
    len: usize,
    sec: &mut i64,
    ticks: &mut u64,
) -> u8 {
    let text = std::slice::from_raw_parts(text, len);
    let Ok(text) = std::str::from_utf8(text) else {
        return 1;
    };
    let Ok(time) = OffsetDateTime::parse(text, &Rfc3339) else {
        return 1;
    };
    *sec = time.unix_timestamp();
    *ticks = u64::from(time.nanosecond()) * TICKS_OF_NANOSECOND;
    0
}

#[no_mangle]
pub unsafe extern "C" fn peer_write(
    sec: i64,
    ticks: u64,
    out: *mut u8,
    room: usize,
    written: &mut usize,
) -> u8 {
    let mut out = std::slice::from_raw_parts_mut(out, room);
    let nanoseconds = i128::from(sec) * NANOSECONDS + i128::from(ticks / TICKS_OF_NANOSECOND);
    let Ok(time) = OffsetDateTime::from_unix_timestamp_nanos(nanoseconds) else {
        return 1;
    };
    match time.format_into(&mut out, &*MILLISECONDS) {
        Ok(count) => *written = count,
        Err(_) => return 1,
    }
    0
}
