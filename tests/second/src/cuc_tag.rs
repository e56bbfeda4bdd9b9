//! CUC tags: the moment that the tag would be as a code, and from there on by steps, all in ticks.

use crate::listing::{window, Listing};
use crate::{binary, scale};
use std::iter::successors;

const SHORT: u8 = 1;
const IDENTIFICATION: u8 = 2;
const EXTRA: u8 = 4;

/// The moments from one record to another that a tag names, as far as the room goes.
pub fn list(
    tag: &[u8],
    front: bool,
    p: u8,
    epoch: i64,
    from: (i64, u64),
    to: (i64, u64),
    room: usize,
) -> Result<Listing, u8> {
    let p = match tag.first() {
        Some(&first) if front => first,
        None if front => return Err(SHORT),
        _ => p,
    };
    let bits = format!("{p:08b}");
    if !matches!(&bits[1..4], "001" | "010") {
        return Err(IDENTIFICATION);
    }
    let (sec, ticks, used) = binary::read(tag, front, p, epoch)?;
    if used < tag.len() {
        return Err(EXTRA);
    }
    let window = window(from, to)?;
    let first = scale::total(sec, ticks);
    let step = scale::total(seconds_to_wrap(&bits[4..6]), 0);
    // Whole steps that end before the window begins are taken at once.
    let skipped = (window.start - first).max(0) / step;
    let named = successors(Some(first + skipped * step), |moment| Some(moment + step))
        .skip_while(|&moment| moment < window.start)
        .take_while(|&moment| moment < window.end)
        .map(|moment| scale::parts(moment).0 as i64);
    Ok(Listing::new(ticks, named, room))
}

/// Two bits are the coarse octets less one.
fn seconds_to_wrap(coarse: &str) -> i64 {
    match coarse {
        "00" => 1 << 8,
        "01" => 1 << 16,
        "10" => 1 << 24,
        _ => 1 << 32,
    }
}
