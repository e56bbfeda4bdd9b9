//! Receivers of T-fields that are cut anywhere, compared with the second program, and with reading all bytes at once.

mod common;

use common::codes::{
    any_bytes, damage, edge_epochs, length, octets, octets_of_text, Answers, Moments, Tallies,
};
use common::{after, fewer, Tally};
use honigzange::{raw, Receiver, Record, Refusal, Row};
use second::receiver::{self, State};
use second::rng::Rng;
use std::ptr::{null, null_mut};

mod c {
    use honigzange::{raw::Receiver, Row};

    extern "C" {
        pub fn hz_receive(
            receiver: *mut Receiver,
            piece: *const u8,
            len: usize,
            rows: *mut Row,
            room: usize,
            count: *mut usize,
        ) -> u8;
    }
}

/// What T-fields can be answered with: never 1.
const ROWS: Answers = Answers {
    cuc: &[0],
    cds: &[0, 4, 5, 6],
    ccs: &[0, 4, 5, 6],
    none: &[],
};

fn octets_in(state: &raw::Receiver) -> State {
    let mut octets = [0; 22];
    octets[0] = state.p;
    octets[1..9].copy_from_slice(&state.epoch);
    octets[9] = state.count;
    octets[10..].copy_from_slice(&state.pending);
    octets
}

fn state_of(octets: State) -> raw::Receiver {
    raw::Receiver {
        p: octets[0],
        epoch: octets[1..9].try_into().expect("eight octets"),
        count: octets[9],
        pending: octets[10..].try_into().expect("twelve octets"),
    }
}

fn row_of((refusal, sec, ticks): receiver::Row) -> Row {
    let record = Record { sec, ticks };
    Row { refusal, record }
}

fn any_row(rng: &mut Rng) -> Row {
    row_of((rng.u64(), rng.i64(), rng.u64()))
}

/// One piece to both programs, with so many rows that hold anything: the number, the receiver, every row and the
/// count. After a refusal all are as they were. What was answered is given.
fn compare(
    rng: &mut Rng,
    tally: &mut Tally,
    state: &mut raw::Receiver,
    piece: &[u8],
    room: usize,
) -> Result<Vec<Row>, u8> {
    let expected = receiver::receive(octets_in(state), piece, room);
    tally.count(&expected);
    let before = (0..room).map(|_| any_row(rng)).collect::<Vec<_>>();
    let (held, cell) = (*state, rng.u64() as usize);
    let (mut rows, mut count) = (before.clone(), cell);
    let number = raw::receive(state, piece, &mut rows, &mut count);
    let told = expected.map(|(next, told)| {
        let told = told.into_iter().map(row_of).collect::<Vec<_>>();
        (state_of(next), told)
    });
    let wanted = match &told {
        Ok((next, told)) => {
            let all = [told, &before[told.len()..]].concat();
            (0, *next, all, told.len())
        }
        Err(number) => (*number, held, before, cell),
    };
    let found = (number, *state, rows, count);
    assert_eq!(found, wanted, "{held:02X?}, {piece:02X?}, {room}");
    told.map(|(_, told)| told)
}

/// A making in C's terms and in Rust's.
fn compare_making(rng: &mut Rng, tally: &mut Tally, p: u8, epoch: i64) {
    let expected = receiver::make(p, epoch).map(state_of);
    tally.count(&expected);
    let before = any_state(rng);
    let mut made = before;
    let number = raw::receiver_make(p, epoch, &mut made);
    assert_eq!((number, made), after(expected, before), "{p:02X}, {epoch}");
    let found = Receiver::new(p, epoch).map_err(Refusal::number);
    assert_eq!(found.is_ok(), expected.is_ok());
    assert_eq!(found.err(), expected.err());
}

fn any_state(rng: &mut Rng) -> raw::Receiver {
    let octets = any_bytes(rng, 22);
    state_of(octets.try_into().expect("so many were asked for"))
}

fn made(p: u8, epoch: i64) -> raw::Receiver {
    let mut state = raw::Receiver::NONE;
    assert_eq!(raw::receiver_make(p, epoch, &mut state), 0);
    state
}

/// A run of T-fields of one layout under one epoch, and what reading it whole gives.
struct Run {
    p: u8,
    epoch: i64,
    bytes: Vec<u8>,
    /// What hz_read_binary answers where each T-field begins.
    rows: Vec<Row>,
}

impl Run {
    /// So many T-fields, most of them good, and so many bytes of another one.
    fn any(rng: &mut Rng, moments: &Moments, p: u8, fields: usize, more: usize) -> Run {
        let epoch = moments.good_epoch(rng, p);
        let mut bytes = Vec::new();
        for _ in 0..=fields {
            let mut t = moments.field_from(rng, p, epoch);
            if rng.once_in(4) {
                damage(rng, &mut t);
            }
            bytes.extend(t);
        }
        bytes.truncate(fields * length(p) + more);
        Run::of(p, epoch, bytes)
    }

    fn of(p: u8, epoch: i64, bytes: Vec<u8>) -> Run {
        let whole = bytes.chunks_exact(length(p)).len();
        let places = (0..whole).map(|i| i * length(p));
        let rows = places.map(|at| read_at(&bytes[at..], p, epoch)).collect();
        Run {
            p,
            epoch,
            bytes,
            rows,
        }
    }

    fn left(&self) -> &[u8] {
        let whole = self.rows.len() * length(self.p);
        &self.bytes[whole..]
    }

    /// Feeds the run, cut at these places, with as many rows as each piece has T-fields to complete. The answers are
    /// those of the whole, and what is left is pending.
    fn compare(&self, rng: &mut Rng, tallies: &mut Tallies, cuts: &[usize]) {
        let mut state = made(self.p, self.epoch);
        let mut receiver = Receiver::new(self.p, self.epoch).expect("the same was made");
        let (mut from, mut rows) = (0, Vec::new());
        for &to in cuts.iter().chain([&self.bytes.len()]) {
            let piece = &self.bytes[from..to];
            let room = to / length(self.p) - from / length(self.p);
            let tally = tallies.of(Some(self.p));
            let told = compare(rng, &mut Tally::default(), &mut state, piece, room);
            let told = told.expect("there is room");
            told.iter().for_each(|row| tally.count(&answer(*row)));
            let mut lent = vec![Row::EMPTY; room];
            let (next, answered) = receiver.feed(piece, &mut lent).expect("there is room");
            assert_eq!(answered, told);
            assert_eq!(next.pending(), &state.pending[..state.count.into()]);
            (receiver, from) = (next, to);
            rows.extend(told);
        }
        assert_eq!(rows, self.rows, "{:02X?}, {cuts:?}", self.bytes);
        assert_eq!(receiver.pending(), self.left(), "{cuts:?}");
    }
}

/// What the reader of binary codes says of the T-field at the start of the bytes.
fn read_at(bytes: &[u8], p: u8, epoch: i64) -> Row {
    let (mut row, mut used) = (Row::EMPTY, length(p));
    let Record { sec, ticks } = &mut row.record;
    let number = raw::read_binary(bytes, false, p, epoch, sec, ticks, &mut used);
    row.refusal = number.into();
    assert_eq!(used, length(p));
    row
}

fn answer(row: Row) -> Result<Record, u8> {
    let answer = row.answer().map_err(Refusal::number);
    assert_eq!(answer.err().unwrap_or(0), row.refusal as u8);
    assert!(answer.is_ok() || row.record == Row::EMPTY.record);
    answer
}

/// Places at which a run is cut, so many on average between two. Two cuts at one place leave a piece of no bytes.
fn any_cuts(rng: &mut Rng, len: usize, apart: u64) -> Vec<usize> {
    let (mut cuts, mut at) = (Vec::new(), 0);
    loop {
        at += rng.below(2 * apart) as usize;
        if at > len {
            return cuts;
        }
        cuts.push(at);
    }
}

#[test]
fn every_making() {
    let (mut rng, mut tally) = (Rng::new(91), Tally::default());
    for p in 0..=u8::MAX {
        for epoch in edge_epochs() {
            compare_making(&mut rng, &mut tally, p, epoch);
        }
    }
    for _ in 0..fewer(200_000) {
        let (p, epoch) = (rng.u64() as u8, rng.i64() >> rng.below(64));
        compare_making(&mut rng, &mut tally, p, epoch);
    }
    tally.assert_each_over(&[(0, 40_000), (2, 100_000), (3, 40_000), (7, 1_000)]);
}

/// Runs of three T-fields and a part of a fourth, in every layout: in one piece, and cut at every place and at every
/// two places, which may be one.
#[test]
fn every_cut_of_every_layout() {
    let (mut rng, mut tallies, moments) = (Rng::new(92), Tallies::default(), Moments::new());
    for p in octets().repeat(4) {
        let more = rng.below(length(p) as u64) as usize;
        let run = Run::any(&mut rng, &moments, p, 3, more);
        let len = run.bytes.len();
        run.compare(&mut rng, &mut tallies, &[]);
        for first in 0..=len {
            run.compare(&mut rng, &mut tallies, &[first]);
            for second in first..=len {
                run.compare(&mut rng, &mut tallies, &[first, second]);
            }
        }
    }
    tallies.assert_each_over(500, ROWS);
}

/// Every way at all to cut runs of two T-fields and a part of a third, of up to twelve bytes.
#[test]
fn every_way_to_cut_short_runs() {
    let (mut rng, mut tallies, moments) = (Rng::new(93), Tallies::default(), Moments::new());
    for p in octets().into_iter().filter(|&p| length(p) <= 6) {
        let more = rng.below(length(p) as u64).min(12 - 2 * length(p) as u64);
        let run = Run::any(&mut rng, &moments, p, 2, more as usize);
        let places = (1..run.bytes.len()).collect::<Vec<_>>();
        for ways in 0..1u32 << places.len() {
            let cuts = places.iter().filter(|&&at| ways >> (at - 1) & 1 == 1);
            let cuts = cuts.copied().collect::<Vec<_>>();
            run.compare(&mut rng, &mut tallies, &cuts);
        }
    }
    tallies.cuc.assert_each_over(&[(0, 30_000)]);
}

#[test]
fn byte_by_byte() {
    let (mut rng, mut tallies, moments) = (Rng::new(94), Tallies::default(), Moments::new());
    for p in octets() {
        let more = rng.below(length(p) as u64) as usize;
        let run = Run::any(&mut rng, &moments, p, fewer(2_000) as usize, more);
        let cuts = (1..run.bytes.len()).collect::<Vec<_>>();
        run.compare(&mut rng, &mut tallies, &cuts);
    }
    tallies.assert_each_over(500, ROWS);
}

/// Long runs, cut at random: into a few bytes, into some T-fields, and into many.
#[test]
fn long_runs() {
    let (mut rng, mut tallies, moments) = (Rng::new(95), Tallies::default(), Moments::new());
    for p in octets() {
        for apart in [1, 2, 7, 16, 100, 4_096] {
            let more = rng.below(length(p) as u64) as usize;
            let run = Run::any(&mut rng, &moments, p, fewer(2_000) as usize, more);
            let cuts = any_cuts(&mut rng, run.bytes.len(), apart);
            run.compare(&mut rng, &mut tallies, &cuts);
        }
    }
    tallies.assert_each_over(3_000, ROWS);
}

/// Any room for any piece. After an 8 the same piece goes on with a row for each T-field, as if nothing had been.
#[test]
fn rooms_of_all_kinds() {
    let (mut rng, mut tally, moments) = (Rng::new(96), Tally::default(), Moments::new());
    for p in octets() {
        for _ in 0..fewer(50) {
            let run = Run::any(&mut rng, &moments, p, 40, 0);
            let (mut state, mut rows, mut from) = (made(p, run.epoch), Vec::new(), 0);
            for to in any_cuts(&mut rng, run.bytes.len(), 3 * length(p) as u64) {
                let piece = &run.bytes[from..to];
                let needed = to / length(p) - from / length(p);
                let room = (needed + 2).saturating_sub(rng.below(5) as usize);
                let told = compare(&mut rng, &mut tally, &mut state, piece, room);
                assert_eq!(told.is_err(), room < needed);
                rows.extend(told.unwrap_or_else(|_| {
                    let again = compare(&mut rng, &mut tally, &mut state, piece, needed);
                    again.expect("there is room")
                }));
                from = to;
            }
            assert_eq!(rows, run.rows[..rows.len()]);
            assert_eq!(rows.len(), from / length(p));
        }
    }
    tally.assert_each_over(&[(0, 10_000), (8, 2_000)]);
}

/// Every room, up to a row more than is asked for, for pieces that complete none to six T-fields, whatever is pending and
/// whatever is left.
#[test]
fn every_room() {
    let (mut rng, mut tally, moments) = (Rng::new(97), Tally::default(), Moments::new());
    for p in octets() {
        let width = length(p);
        let run = Run::any(&mut rng, &moments, p, 6, width - 1);
        for pending in 0..width {
            for to in pending..=run.bytes.len() {
                let needed = to / width;
                for room in 0..=needed + 1 {
                    let mut state = made(p, run.epoch);
                    let held = &run.bytes[..pending];
                    let none = compare(&mut rng, &mut Tally::default(), &mut state, held, 0);
                    assert_eq!(none, Ok(vec![]));
                    let piece = &run.bytes[pending..to];
                    let told = compare(&mut rng, &mut tally, &mut state, piece, room);
                    match room < needed {
                        true => assert_eq!(told, Err(8)),
                        false => assert_eq!(told.as_deref(), Ok(&run.rows[..needed])),
                    }
                }
            }
        }
    }
    tally.assert_each_over(&[(0, 30_000), (8, 30_000)]);
}

/// Each octet of a run takes values at which a rule may change. The T-fields beside it are read as before.
#[test]
fn damaged_at_every_place() {
    let (mut rng, mut tallies, moments) = (Rng::new(98), Tallies::default(), Moments::new());
    for p in octets().repeat(4) {
        let width = length(p);
        let whole = Run::any(&mut rng, &moments, p, 4, width - 1);
        for place in 0..whole.bytes.len() {
            for octet in [0x00, 0x0A, 0x60, 0x9A, 0xA0, 0xFF, rng.u64() as u8] {
                let mut bytes = whole.bytes.clone();
                bytes[place] = octet;
                let run = Run::of(p, whole.epoch, bytes);
                let others = (0..4).filter(|&field| field != place / width);
                others.for_each(|field| assert_eq!(run.rows[field], whole.rows[field]));
                let cuts = any_cuts(&mut rng, run.bytes.len(), width as u64);
                run.compare(&mut rng, &mut tallies, &cuts);
            }
        }
    }
    tallies.assert_each_over(1_000, ROWS);
}

/// Every P octet, every count of pending octets, and each octet behind them.
#[test]
fn every_count_and_what_stands_behind() {
    let (mut rng, mut tally) = (Rng::new(99), Tally::default());
    for p in 0..=u8::MAX {
        let epoch = rng.pick(&[0, 0, 1 << 24, 1 << 40]);
        for count in 0..=u8::MAX {
            for behind in 0..=12 {
                let mut state = raw::Receiver {
                    p,
                    epoch: i64::to_be_bytes(epoch),
                    count,
                    pending: [0; 12],
                };
                let held = usize::from(count).min(12);
                state.pending[..held].copy_from_slice(&any_bytes(&mut rng, held));
                if let Some(octet) = state.pending.get_mut(behind) {
                    *octet = rng.pick(&[1, 0x80, 0xFF]);
                }
                let len = rng.below(30) as usize;
                let piece = any_bytes(&mut rng, len);
                let room = rng.below(40) as usize;
                let _ = compare(&mut rng, &mut tally, &mut state, &piece, room);
                if count > 20 && !rng.once_in(16) {
                    break;
                }
            }
        }
    }
    tally.assert_each_over(&[(0, 1_000), (2, 50_000), (3, 20_000), (7, 20_000), (8, 50)]);
}

/// Receivers of any bits, and good ones of which one bit or octet was changed.
#[test]
fn states_of_any_bits() {
    let (mut rng, mut tally, moments) = (Rng::new(100), Tally::default(), Moments::new());
    let good = octets();
    for _ in 0..fewer(500_000) {
        let mut state = any_state(&mut rng);
        if rng.once_in(2) {
            let p = rng.pick(&good);
            let held = rng.below(length(p) as u64) as usize;
            state = made(p, moments.good_epoch(&mut rng, p));
            let pending = any_bytes(&mut rng, held);
            compare(&mut rng, &mut Tally::default(), &mut state, &pending, 0)
                .expect("nothing is completed");
            if rng.once_in(2) {
                let mut octets = octets_in(&state);
                damage(&mut rng, &mut octets);
                state = state_of(octets);
            }
        }
        let (len, room) = (rng.below(40) as usize, rng.below(24) as usize);
        let piece = any_bytes(&mut rng, len);
        let _ = compare(&mut rng, &mut tally, &mut state, &piece, room);
    }
    tally.assert_each_over(&[
        (0, 100_000),
        (2, 100_000),
        (3, 50_000),
        (7, 30_000),
        (8, 5_000),
    ]);
}

#[test]
fn nothing_at_null() {
    let mut rng = Rng::new(101);
    for p in 0..=u8::MAX {
        for count in [0, 1, 12, 13] {
            let mut state = raw::Receiver {
                p,
                count,
                ..raw::Receiver::NONE
            };
            let expected = receiver::receive(octets_in(&state), &[], 0);
            let expected = expected.map(|(next, rows)| (state_of(next), rows.len()));
            let before = (state, rng.u64() as usize);
            let (_, mut cell) = before;
            // SAFETY: pointers to no bytes and to no rows may be null, and receiver and count are two.
            let number = unsafe { c::hz_receive(&mut state, null(), 0, null_mut(), 0, &mut cell) };
            assert_eq!((number, (state, cell)), after(expected, before), "{p:02X}");
        }
    }
}

/// Request 2's own values.
#[test]
fn known_values() {
    assert!(Receiver::new(0x1C, i64::MAX).is_ok());
    assert_eq!(Receiver::new(0x2C, 1 << 40), Err(Refusal::Range));
    let (first, second) = (octets_of_text("542D0526"), octets_of_text("5FE8542D0526"));
    let receiver = Receiver::new(0x40, 0).expect("days and milliseconds");
    let (receiver, none) = receiver
        .feed(&first, &mut [])
        .expect("no room is asked for");
    assert!(none.is_empty());
    assert_eq!(receiver.feed(&second, &mut []), Err(Refusal::Room));
    assert_eq!(receiver.pending(), first);
    let mut rows = [Row::EMPTY];
    let (receiver, told) = receiver.feed(&second, &mut rows).expect("one row");
    assert_eq!(told, [row_of((4, 0, 0))]);
    assert_eq!(receiver.pending(), first);
}
