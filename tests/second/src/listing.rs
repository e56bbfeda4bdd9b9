//! Windows, and what is listed of the moments that a tag names in one.

use crate::scale;
use std::ops::Range;

const BACKWARD: u8 = 9;

/// What a listing answers. The list is as long as the number listed.
#[derive(Clone, Debug, PartialEq, Eq)]
pub struct Listing {
    pub ticks: u64,
    pub secs: Vec<i64>,
    pub more: bool,
}

impl Listing {
    /// As many of the named seconds as there is room for.
    pub fn new(ticks: u64, mut named: impl Iterator<Item = i64>, room: usize) -> Listing {
        let secs = named.by_ref().take(room).collect();
        let more = named.next().is_some();
        Listing { ticks, secs, more }
    }
}

/// The moments of a window, as counts of ticks.
pub fn window(from: (i64, u64), to: (i64, u64)) -> Result<Range<i128>, u8> {
    let (from, to) = (scale::record(from.0, from.1)?, scale::record(to.0, to.1)?);
    if from <= to {
        Ok(from..to)
    } else {
        Err(BACKWARD)
    }
}
