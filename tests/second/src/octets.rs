//! Big-endian counts, as the end of a number of 16 octets.

const ALL: usize = 16;

/// The number that the octets count.
pub fn number(octets: &[u8]) -> i128 {
    let mut all = [0; ALL];
    all[ALL - octets.len()..].copy_from_slice(octets);
    i128::from_be_bytes(all)
}

/// The number in that many octets, if it fits.
pub fn octets(number: i128, count: usize) -> Option<Vec<u8>> {
    let all = number.to_be_bytes();
    let (left, kept) = all.split_at(ALL - count);
    left.iter().all(|&octet| octet == 0).then(|| kept.to_vec())
}
