//! The binary codes: what the bits of a P octet say, and the order in which a call refuses.

use crate::{ccs, cds, cuc, scale};

const SHORT: u8 = 1;
const IDENTIFICATION: u8 = 2;
const UNSUPPORTED: u8 = 3;
const OUT_OF_RANGE: u8 = 7;
const ROOM: u8 = 8;

/// How a T-field is laid out. `own` is true when it counts from the caller's own epoch.
#[derive(Clone, Copy)]
enum Layout {
    Cuc {
        own: bool,
        coarse: usize,
        fine: usize,
    },
    Cds {
        own: bool,
        day: usize,
        remainder: usize,
    },
    Ccs {
        by_day_of_year: bool,
        segments: usize,
    },
}

/// The record that a code shows, and how many bytes the code has.
pub fn read(bytes: &[u8], front: bool, p: u8, epoch: i64) -> Result<(i64, u64, usize), u8> {
    let (p, rest) = match bytes.split_first() {
        Some((&first, rest)) if front => (first, rest),
        None if front => return Err(SHORT),
        _ => (p, bytes),
    };
    let layout = Layout::of(p)?;
    let epoch = layout.epoch(epoch)?;
    let t = rest.get(..layout.octets()).ok_or(SHORT)?;
    let total = match layout {
        Layout::Cuc { fine, .. } => cuc::read(t, fine, epoch),
        Layout::Cds { day, .. } => cds::read(t, day, epoch)?,
        Layout::Ccs { by_day_of_year, .. } => ccs::read(t, by_day_of_year)?,
    };
    let (sec, ticks) = scale::parts(total);
    Ok((sec as i64, ticks, usize::from(front) + t.len()))
}

/// The code of a record.
pub fn write(
    sec: i64,
    ticks: u64,
    front: bool,
    p: u8,
    epoch: i64,
    room: usize,
) -> Result<Vec<u8>, u8> {
    let total = scale::record(sec, ticks)?;
    let layout = Layout::of(p)?;
    let epoch = layout.epoch(epoch)?;
    let t = match layout {
        Layout::Cuc { coarse, fine, .. } => cuc::write(total, coarse, fine, epoch)?,
        Layout::Cds { day, remainder, .. } => cds::write(total, day, remainder, epoch)?,
        Layout::Ccs {
            by_day_of_year,
            segments,
        } => ccs::write(total, by_day_of_year, segments)?,
    };
    let preamble: &[u8] = if front { &[p] } else { &[] };
    let code = [preamble, &t].concat();
    if code.len() <= room {
        Ok(code)
    } else {
        Err(ROOM)
    }
}

/// How many bytes the T-field of a P octet has.
pub fn octets(p: u8) -> Result<usize, u8> {
    Layout::of(p).map(|layout| layout.octets())
}

impl Layout {
    fn of(p: u8) -> Result<Layout, u8> {
        let bits = format!("{p:08b}");
        let set = |bit| &bits[bit..=bit] == "1";
        let layout = match &bits[1..4] {
            identification @ ("001" | "010") => Layout::Cuc {
                own: identification == "010",
                coarse: binary(&bits[4..6]) + 1,
                fine: binary(&bits[6..]),
            },
            "100" => Layout::Cds {
                own: set(4),
                day: binary(&bits[5..6]) + 2,
                remainder: match &bits[6..] {
                    "00" => 0,
                    "01" => 2,
                    "10" => 4,
                    _ => return Err(UNSUPPORTED),
                },
            },
            "101" => Layout::Ccs {
                by_day_of_year: set(4),
                segments: match binary(&bits[5..]) {
                    7 => return Err(UNSUPPORTED),
                    segments => segments,
                },
            },
            _ => return Err(IDENTIFICATION),
        };
        if set(0) {
            Err(UNSUPPORTED)
        } else {
            Ok(layout)
        }
    }

    /// Where the code counts from: 1958, unless it uses the caller's epoch.
    fn epoch(&self, epoch: i64) -> Result<i64, u8> {
        let bits = match self {
            Layout::Cuc { own: true, .. } => 40,
            Layout::Cds { own: true, .. } => 24,
            _ => return Ok(0),
        };
        if scale::fits(bits, epoch.into()) {
            Ok(epoch)
        } else {
            Err(OUT_OF_RANGE)
        }
    }

    fn octets(&self) -> usize {
        match self {
            Layout::Cuc { coarse, fine, .. } => coarse + fine,
            Layout::Cds { day, remainder, .. } => day + 4 + remainder,
            Layout::Ccs { segments, .. } => 7 + segments,
        }
    }
}

fn binary(bits: &str) -> usize {
    usize::from_str_radix(bits, 2).expect("bits are a number")
}
