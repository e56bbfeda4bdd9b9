//! Listing CUC tags, compared with the second program.

mod common;

use common::codes::{
    any_bytes, counts, damage, edge_epochs, kind, length, octets_of, octets_of_text, uses_epoch,
    Kind,
};
use common::lists::{
    around, compare_cuts, compare_listed, pair, room, spoil, ticks_near, told, Expected, Listed,
    RECORDS,
};
use common::{after, fewer, floor, Scale};
use honigzange::{raw, Listing, Preamble, Record, Refusal};
use second::rng::{i64_edges, Rng};
use second::{binary, cuc_tag};
use std::ptr::{null, null_mut};

mod c {
    extern "C" {
        pub fn hz_list_cuc(
            tag: *const u8,
            len: usize,
            front: bool,
            p: u8,
            epoch: i64,
            from_sec: i64,
            from_ticks: u64,
            to_sec: i64,
            to_ticks: u64,
            list: *mut i64,
            room: usize,
            ticks: *mut u64,
            count: *mut usize,
            more: *mut bool,
        ) -> u8;
    }
}

type Window = (Record, Record);

/// A tag with its epoch. With the P octet in front, the one given besides is any.
#[derive(Clone, Copy, Debug)]
struct Tag<'a> {
    bytes: &'a [u8],
    preamble: Preamble,
    epoch: i64,
}

impl<'a> Tag<'a> {
    /// The first of the bytes is the P octet, in front or apart.
    fn of(bytes: &'a [u8], front: bool, epoch: i64) -> Tag<'a> {
        let (bytes, preamble) = match bytes.split_first() {
            Some((&p, t)) if !front => (t, Preamble::Given(p)),
            _ => (bytes, Preamble::Front),
        };
        Tag {
            bytes,
            preamble,
            epoch,
        }
    }

    fn expected(&self, (from, to): Window, room: usize) -> Expected {
        let (front, p) = match self.preamble {
            Preamble::Front => (true, 0),
            Preamble::Given(p) => (false, p),
        };
        cuc_tag::list(self.bytes, front, p, self.epoch, pair(from), pair(to), room)
    }

    fn list(&self, (from, to): Window, list: &mut [i64]) -> Result<Listing, Refusal> {
        honigzange::list_cuc(self.bytes, self.preamble, self.epoch, from, to, list)
    }

    /// The number and the result cells in C's terms, and the answer in Rust's.
    fn compare(&self, rng: &mut Rng, listed: &mut Listed, window: Window, room: usize) {
        let expected = self.expected(window, room);
        listed.count(&expected);
        let (front, p) = match self.preamble {
            Preamble::Front => (true, rng.u64() as u8),
            Preamble::Given(p) => (false, p),
        };
        let (Tag { bytes, epoch, .. }, (from, to)) = (*self, window);
        let input = (self, window);
        compare_listed(
            rng,
            &input,
            &expected,
            room,
            |list, (ticks, count, more)| {
                raw::list_cuc(
                    bytes, front, p, epoch, from.sec, from.ticks, to.sec, to.ticks, list, ticks,
                    count, more,
                )
            },
        );
        compare_listed(rng, &input, &expected, room, |list, cells| {
            told(self.list(window, list), cells)
        });
    }
}

/// The P octet apart from the T-field, and in front of it.
fn compare_both(
    rng: &mut Rng,
    listed: &mut Listed,
    p: u8,
    t: &[u8],
    epoch: i64,
    window: Window,
    room: usize,
) {
    let bytes = [&[p], t].concat();
    for front in [false, true] {
        Tag::of(&bytes, front, epoch).compare(rng, listed, window, room);
    }
}

/// The T-field of a good P octet, an epoch that suits it, and a moment that they name.
fn any_tag(rng: &mut Rng, p: u8) -> (Vec<u8>, i64, Record) {
    let t = any_bytes(rng, length(p));
    let epoch = match rng.below(4) {
        _ if !uses_epoch(p) => rng.i64(),
        0 => rng.pick(&[-1 << 40, 0, (1 << 40) - 1]),
        1 => rng.between(-1 << 40, (1 << 40) - 1),
        _ => rng.between(-1_000, 1_000),
    };
    let first = binary::read(&t, false, p, epoch);
    let (sec, ticks, _) = first.expect("the tag is a code");
    let most = ((1 << 41) - 1 - sec) / counts(p);
    let wraps = match rng.below(4) {
        0 => 0,
        1 => 1,
        2 => rng.between(0, 10),
        _ => rng.between(0, most),
    };
    let sec = sec + wraps.min(most) * counts(p);
    (t, epoch, Record { sec, ticks })
}

/// A valid window of any size, more often than not around a moment.
fn any_window(rng: &mut Rng, p: u8, moment: Record) -> Window {
    let reach = match rng.below(8) {
        0 => 0,
        1 | 2 => 1,
        3 => rng.between(0, counts(p)),
        4 | 5 => rng.between(0, 8 * counts(p)),
        6 => rng.between(0, 1_000 * counts(p)),
        _ => 1 << 42,
    };
    around(rng, moment, reach, RECORDS)
}

#[test]
fn every_p_octet_with_edge_epochs() {
    let (mut rng, mut listed) = (Rng::new(121), Listed::default());
    let window = (Record { sec: 0, ticks: 0 }, RECORDS.1);
    for p in 0..=u8::MAX {
        for epoch in edge_epochs() {
            let (count, rooms) = (rng.below(10) as usize, room(&mut rng));
            let any = any_bytes(&mut rng, count);
            compare_both(&mut rng, &mut listed, p, &any, epoch, window, rooms);
            compare_both(&mut rng, &mut listed, p, &[], epoch, window, rooms);
            if kind(p & 0x7F) == Some(Kind::Cuc) {
                let t = any_bytes(&mut rng, length(p & 0x7F));
                compare_both(&mut rng, &mut listed, p, &t, epoch, window, rooms);
            }
        }
    }
    let tally = &listed.tally;
    tally.assert_each_over(&[
        (0, 1_000),
        (1, 1_000),
        (2, 10_000),
        (3, 2_000),
        (4, 200),
        (7, 1_000),
    ]);
}

/// Bytes that are lacking are short, and bytes too many are no tag.
#[test]
fn every_cut_of_every_layout() {
    let (mut rng, mut listed) = (Rng::new(122), Listed::default());
    let each = fewer(500);
    for p in octets_of(Kind::Cuc) {
        for _ in 0..each {
            let (t, epoch, moment) = any_tag(&mut rng, p);
            let (window, rooms) = (any_window(&mut rng, p, moment), room(&mut rng));
            let bytes = [&t[..], &any_bytes(&mut rng, 2)].concat();
            for cut in 0..=bytes.len() {
                compare_both(
                    &mut rng,
                    &mut listed,
                    p,
                    &bytes[..cut],
                    epoch,
                    window,
                    rooms,
                );
            }
        }
    }
    // Four widths of the whole seconds and four of the fraction, each with both epochs.
    let (layouts, shorter) = (32, (1 + 2 + 3 + 4) * 4 * 2 + (1 + 2 + 3) * 4 * 2);
    listed.tally.assert_exactly(&[
        (0, 2 * each * layouts),
        (1, 2 * each * shorter),
        (4, 2 * each * 2 * layouts),
    ]);
}

/// Windows that begin or end a tick before, at or after a named moment.
#[test]
fn ticks_around_named_moments() {
    let (mut rng, mut listed) = (Rng::new(123), Listed::default());
    for p in octets_of(Kind::Cuc) {
        for _ in 0..60 {
            let (t, epoch, moment) = any_tag(&mut rng, p);
            let ends = [moment.sec, moment.sec + counts(p)].map(|sec| Record { sec, ..moment });
            let ends = ends.map(neighbours).concat();
            for &from in &ends {
                for &to in &ends {
                    let rooms = rng.below(4) as usize;
                    compare_both(&mut rng, &mut listed, p, &t, epoch, (from, to), rooms);
                }
            }
        }
    }
    listed.assert_each_over(5_000);
    listed
        .tally
        .assert_each_over(&[(0, 50_000), (7, 100), (9, 30_000)]);
}

/// A moment, and those a tick and a second to each side. Of the last record some are invalid.
fn neighbours(moment: Record) -> Vec<Record> {
    let Record { sec, ticks } = moment;
    let tick = match ticks {
        0 => (sec - 1, Record::TICKS - 1),
        _ => (sec, ticks - 1),
    };
    [
        tick,
        (sec, ticks),
        (sec, ticks + 1),
        (sec - 1, ticks),
        (sec + 1, ticks),
    ]
    .map(|(sec, ticks)| Record { sec, ticks })
    .to_vec()
}

/// Every room from 0 to two more than is named.
#[test]
fn every_room() {
    let (mut rng, mut listed) = (Rng::new(124), Listed::default());
    for p in octets_of(Kind::Cuc) {
        for _ in 0..20 {
            let (t, epoch, moment) = any_tag(&mut rng, p);
            let window = around(&mut rng, moment, 8 * counts(p), RECORDS);
            for rooms in 0..=18 {
                compare_both(&mut rng, &mut listed, p, &t, epoch, window, rooms);
            }
        }
    }
    listed.assert_each_over(500);
}

/// Some lists of many thousands.
#[test]
fn long_lists() {
    let (mut rng, mut listed) = (Rng::new(125), Listed::default());
    for p in octets_of(Kind::Cuc)
        .into_iter()
        .filter(|&p| counts(p) < 1 << 20)
    {
        let (t, epoch, moment) = any_tag(&mut rng, p);
        let to = Record {
            sec: moment.sec + 50_000 * counts(p),
            ..moment
        };
        let window = (moment, to.min(RECORDS.1));
        for rooms in [49_999, 50_000, 50_001] {
            compare_both(&mut rng, &mut listed, p, &t, epoch, window, rooms);
        }
    }
    assert!(listed.whole >= 30 && listed.more >= 10, "{listed:?}");
}

/// The farthest epochs, and windows at both ends of all records.
#[test]
fn far_epochs_and_windows() {
    let (mut rng, mut listed) = (Rng::new(126), Listed::default());
    let ends = i64_edges(&[-1 << 41, -1 << 40, 1 << 40, 1 << 41, (1 << 41) - (1 << 32)]);
    for p in octets_of(Kind::Cuc) {
        for epoch in [-1 << 40, -1, 0, 1, (1 << 40) - 1] {
            for _ in 0..fewer(150) {
                let count = length(p);
                let t = match rng.below(3) {
                    0 => vec![0; count],
                    1 => vec![0xFF; count],
                    _ => any_bytes(&mut rng, count),
                };
                let ticks = ticks_near(&mut rng, 0);
                let [from, to] = [0; 2].map(|_| Record {
                    sec: rng.pick(&ends),
                    ticks,
                });
                let rooms = room(&mut rng);
                compare_both(&mut rng, &mut listed, p, &t, epoch, (from, to), rooms);
            }
        }
    }
    listed.assert_each_over(400);
    listed
        .tally
        .assert_each_over(&[(0, 10_000), (7, 10_000), (9, 5_000)]);
}

/// Good tags most often, some damaged, cut or followed by bytes, and windows that are bad at times.
#[test]
fn tags_of_all_kinds() {
    let (mut rng, mut listed, scale) = (Rng::new(127), Listed::default(), Scale::new());
    let good = octets_of(Kind::Cuc);
    for _ in 0..fewer(2_000_000) {
        let p = rng.pick(&good);
        let (t, mut epoch, moment) = any_tag(&mut rng, p);
        let mut window = any_window(&mut rng, p, moment);
        let mut bytes = [&[p], &t[..]].concat();
        let (cut, more) = (rng.below(9) as usize, rng.between(1, 3) as usize);
        match rng.below(32) {
            0..=3 => damage(&mut rng, &mut bytes),
            4 | 5 => bytes.truncate(cut),
            6 | 7 => bytes.extend(any_bytes(&mut rng, more)),
            8 => bytes[0] = rng.u64() as u8,
            _ => {}
        }
        if rng.once_in(16) {
            epoch = rng.i64() >> rng.below(64);
        }
        if rng.once_in(16) {
            window = spoil(&mut rng, &scale, window);
        }
        let (front, rooms) = (rng.once_in(2), room(&mut rng));
        let tag = Tag::of(&bytes, front, epoch);
        tag.compare(&mut rng, &mut listed, window, rooms);
    }
    listed.assert_each_over(100_000);
    listed.tally.assert_each_over(&[
        (0, 1_000_000),
        (1, 50_000),
        (2, 50_000),
        (3, 10_000),
        (4, 100_000),
        (7, 30_000),
        (9, 30_000),
    ]);
}

#[test]
fn any_bits_at_all() {
    let (mut rng, mut listed) = (Rng::new(128), Listed::default());
    for _ in 0..fewer(2_000_000) {
        let (count, p) = (rng.below(10) as usize, rng.u64() as u8);
        let bytes = any_bytes(&mut rng, count);
        let shifts = [0; 5].map(|_| rng.below(64));
        let epoch = rng.i64() >> shifts[0];
        let [from, to] = [1, 3].map(|place: usize| Record {
            sec: rng.i64() >> shifts[place],
            ticks: rng.u64() >> shifts[place + 1],
        });
        let preamble = rng.pick(&[Preamble::Front, Preamble::Given(p)]);
        let (tag, rooms) = (
            Tag {
                bytes: &bytes,
                preamble,
                epoch,
            },
            room(&mut rng),
        );
        tag.compare(&mut rng, &mut listed, (from, to), rooms);
    }
    listed.tally.assert_each_over(&[
        (0, 3_000),
        (1, 100_000),
        (2, 1_000_000),
        (3, 150_000),
        (4, 50_000),
        (7, 50_000),
        (9, 3_000),
    ]);
}

/// Windows that adjoin, and lists that are gone on with, give the list of the whole.
#[test]
fn cut_windows_and_cut_lists() {
    let (mut rng, mut named) = (Rng::new(129), 0);
    for p in octets_of(Kind::Cuc) {
        for _ in 0..fewer(400) {
            let (t, epoch, moment) = any_tag(&mut rng, p);
            let window = around(&mut rng, moment, 8 * counts(p), RECORDS);
            let bytes = [&[p], &t[..]].concat();
            let tag = Tag::of(&bytes, rng.once_in(2), epoch);
            named += compare_cuts(&mut rng, window, |from, to, list| {
                tag.list((from, to), list)
            });
        }
    }
    assert!(named as u64 > floor(50_000), "too few: {named}");
}

#[test]
fn nothing_lent_at_null() {
    let mut rng = Rng::new(130);
    for p in 0..=u8::MAX {
        for (front, epoch, to) in [
            (true, 0, 0),
            (false, 0, 9),
            (false, i64::MAX, 9),
            (false, 0, -9),
        ] {
            let before = (rng.u64(), rng.u64() as usize, rng.once_in(2));
            let (mut ticks, mut count, mut more) = before;
            let (list, cells) = (null_mut(), (&mut ticks, &mut count, &mut more));
            // SAFETY: a pointer to no bytes or elements may be null, and the cells are three.
            let number = unsafe {
                c::hz_list_cuc(
                    null(),
                    0,
                    front,
                    p,
                    epoch,
                    0,
                    0,
                    to,
                    0,
                    list,
                    0,
                    cells.0,
                    cells.1,
                    cells.2,
                )
            };
            let expected = cuc_tag::list(&[], front, p, epoch, (0, 0), (to, 0), 0);
            let expected = expected.map(|listing| (listing.ticks, 0, listing.more));
            assert_eq!(
                (number, (ticks, count, more)),
                after(expected, before),
                "{p:02X}"
            );
        }
    }
}

/// A good tag and no room for a list.
#[test]
fn no_list_at_null() {
    let (t, mut ticks, mut count, mut more) = ([0x80], 17, 18, false);
    // SAFETY: a pointer to no elements may be null, the byte is one and the cells are three.
    let number = unsafe {
        c::hz_list_cuc(
            t.as_ptr(),
            1,
            false,
            0x10,
            0,
            0,
            0,
            129,
            0,
            null_mut(),
            0,
            &mut ticks,
            &mut count,
            &mut more,
        )
    };
    assert_eq!((number, ticks, count, more), (0, 0, 0, true));
}

/// Document 01's own.
#[test]
fn known_lists() {
    let window = [0, 1_024].map(|sec| Record { sec, ticks: 0 }).into();
    for front in [true, false] {
        let tag = Tag::of(&[0x10, 0], front, i64::MIN);
        let (mut four, mut two) = ([7; 6], [7; 2]);
        let answer = |count, more| {
            Ok(Listing {
                ticks: 0,
                count,
                more,
            })
        };
        assert_eq!(tag.list(window, &mut four), answer(4, false));
        assert_eq!(four, [0, 256, 512, 768, 7, 7]);
        assert_eq!(tag.list(window, &mut two), answer(2, true));
        assert_eq!(two, [0, 256]);
        assert_eq!(tag.list(window, &mut []), answer(0, true));
    }
}

/// Of two faults the first in document 01's order is told. The epoch is out of range in all of these, and both
/// ends of the window are invalid in all but the last ones.
#[test]
fn known_refusals() {
    let valid = |sec| Record { sec, ticks: 0 };
    let bad = Record {
        sec: 0,
        ticks: Record::TICKS,
    };
    let worse = Record {
        sec: -1 << 42,
        ticks: 0,
    };
    let known = [
        ("", bad, worse, Refusal::Short),
        ("80", bad, worse, Refusal::Identification),
        ("F0", bad, worse, Refusal::Identification),
        ("C0", bad, worse, Refusal::Identification),
        ("43", bad, worse, Refusal::Identification),
        ("57", bad, worse, Refusal::Identification),
        ("D7", bad, worse, Refusal::Identification),
        ("A0", bad, worse, Refusal::Unsupported),
        ("90", bad, worse, Refusal::Unsupported),
        ("20", bad, worse, Refusal::Range),
        ("2000", bad, worse, Refusal::Range),
        ("200000", bad, worse, Refusal::Range),
        ("10", bad, worse, Refusal::Short),
        ("1F000000000000", bad, worse, Refusal::Short),
        ("100000", bad, worse, Refusal::Field),
        ("1000", valid(1), worse, Refusal::Range),
        ("1000", bad, valid(-1), Refusal::Range),
        ("1000", valid(1), valid(0), Refusal::Window),
        (
            "1000",
            Record { sec: 0, ticks: 1 },
            valid(0),
            Refusal::Window,
        ),
    ];
    for (text, from, to, refusal) in known {
        let bytes = octets_of_text(text);
        let tag = Tag::of(&bytes, true, 1 << 40);
        let mut list = [17; 3];
        assert_eq!(tag.list((from, to), &mut list), Err(refusal), "{text}");
        assert_eq!(list, [17; 3], "{text}");
    }
}
