//! CUC: the whole T-field as one count of its last octet's unit.

use crate::octets::{number, octets};
use crate::scale;

const TARGET: u8 = 7;

/// All ticks of the moment that a T-field shows.
pub fn read(t: &[u8], fine: usize, epoch: i64) -> i128 {
    scale::total(epoch, 0) + number(t) * unit(fine)
}

/// The T-field of a moment.
pub fn write(total: i128, coarse: usize, fine: usize, epoch: i64) -> Result<Vec<u8>, u8> {
    let count = (total - scale::total(epoch, 0)).div_euclid(unit(fine));
    octets(count, coarse + fine).ok_or(TARGET)
}

/// The ticks of the last octet's unit.
fn unit(fine: usize) -> i128 {
    i128::from(scale::TICKS) / 256i128.pow(fine as u32)
}
