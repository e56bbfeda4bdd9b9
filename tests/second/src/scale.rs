//! Records and spans as one signed count of ticks.

/// The ticks of a second: 4,096 for each picosecond.
pub const TICKS: u64 = 4_096 * 10u64.pow(12);

/// Seconds of a record are from -2^41 to 2^41 - 1, those of a span from -2^42 to 2^42 - 1.
const RECORD_BITS: u32 = 41;
const SPAN_BITS: u32 = 42;

const OUT_OF_RANGE: u8 = 7;

/// The span a - b.
pub fn difference(a_sec: i64, a_ticks: u64, b_sec: i64, b_ticks: u64) -> Result<(i64, u64), u8> {
    let a = record(a_sec, a_ticks)?;
    let b = record(b_sec, b_ticks)?;
    valid_parts(SPAN_BITS, a - b)
}

/// The record that lies a span after another.
pub fn shift(sec: i64, ticks: u64, by_sec: i64, by_ticks: u64) -> Result<(i64, u64), u8> {
    let from = record(sec, ticks)?;
    let by = valid_total(SPAN_BITS, by_sec, by_ticks)?;
    valid_parts(RECORD_BITS, from + by)
}

/// All ticks of a valid record.
pub fn record(sec: i64, ticks: u64) -> Result<i128, u8> {
    valid_total(RECORD_BITS, sec, ticks)
}

/// All ticks of a record or span, valid or not.
pub fn total(sec: i64, ticks: u64) -> i128 {
    i128::from(sec) * i128::from(TICKS) + i128::from(ticks)
}

/// Whole seconds, taken downward, and the ticks after them.
pub fn parts(total: i128) -> (i128, u64) {
    let ticks = i128::from(TICKS);
    (total.div_euclid(ticks), total.rem_euclid(ticks) as u64)
}

fn valid_total(bits: u32, sec: i64, ticks: u64) -> Result<i128, u8> {
    if fits(bits, i128::from(sec)) && ticks < TICKS {
        Ok(total(sec, ticks))
    } else {
        Err(OUT_OF_RANGE)
    }
}

fn valid_parts(bits: u32, total: i128) -> Result<(i64, u64), u8> {
    let (sec, ticks) = parts(total);
    if fits(bits, sec) {
        Ok((sec as i64, ticks))
    } else {
        Err(OUT_OF_RANGE)
    }
}

/// From -2^bits to 2^bits - 1.
pub fn fits(bits: u32, number: i128) -> bool {
    number >> bits == 0 || number >> bits == -1
}
