//! A receiver of T-fields that are cut anywhere: the run so far is put together again and cut into T-fields.

use crate::binary;

const SHORT: u8 = 1;
const OUT_OF_RANGE: u8 = 7;
const ROOM: u8 = 8;

/// The octets that a caller keeps: the P octet, the epoch, the number of those pending, and room for these.
pub type State = [u8; 22];

/// 0 and a record's seconds and ticks, or a refusal's number and zeros.
pub type Row = (u64, i64, u64);

/// A state that holds nothing.
pub fn make(p: u8, epoch: i64) -> Result<State, u8> {
    judge(p, epoch)?;
    Ok(state(p, epoch, &[]))
}

/// The next state, and a row for each T-field that the piece completes.
pub fn receive(from: State, piece: &[u8], room: usize) -> Result<(State, Vec<Row>), u8> {
    let (p, epoch) = (from[0], from[1..9].try_into().map(i64::from_be_bytes));
    let epoch = epoch.expect("an epoch has eight octets");
    let width = judge(p, epoch)?;
    let (count, octets) = (usize::from(from[9]), &from[10..]);
    if count >= width || octets[count..].iter().any(|&octet| octet != 0) {
        return Err(OUT_OF_RANGE);
    }
    let run = [&octets[..count], piece].concat();
    let fields = run.chunks_exact(width);
    let left = fields.remainder();
    if fields.len() > room {
        return Err(ROOM);
    }
    let row = |field| match binary::read(field, false, p, epoch) {
        Ok((sec, ticks, _)) => (0, sec, ticks),
        Err(number) => (number.into(), 0, 0),
    };
    Ok((state(p, epoch, left), fields.map(row).collect()))
}

/// How many octets a T-field has. Of a good P octet and epoch, reading no bytes says only that they are too few.
fn judge(p: u8, epoch: i64) -> Result<usize, u8> {
    match binary::read(&[], false, p, epoch) {
        Err(SHORT) => binary::octets(p),
        Err(number) => Err(number),
        Ok(_) => unreachable!("every T-field has octets"),
    }
}

fn state(p: u8, epoch: i64, pending: &[u8]) -> State {
    let mut octets = [
        &[p][..],
        &epoch.to_be_bytes(),
        &[pending.len() as u8],
        pending,
    ]
    .concat();
    octets.resize(22, 0);
    octets
        .try_into()
        .expect("fewer octets are pending than a T-field has")
}
