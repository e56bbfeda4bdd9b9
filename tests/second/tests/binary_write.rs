//! Writing binary codes, compared with the second program, and there and back.

mod common;

use common::codes::{
    any_bytes, counts, damage, edge_epochs, kind, leaps, length, octets, octets_of, octets_of_text,
    ticks, unit, uses_epoch, Answers, Kind, Moments, Tallies, FIRST_SECOND, KNOWN, LAST_SECOND,
};
use common::{after, fewer, floor, Scale};
use honigzange::{raw, BinarySetting, Preamble, Record, Refusal, BINARY_ROOM};
use second::rng::Rng;
use second::{binary, leap, scale};
use std::ptr::null_mut;

mod c {
    extern "C" {
        pub fn hz_write_binary(
            sec: i64,
            ticks: u64,
            front: bool,
            p: u8,
            epoch: i64,
            out: *mut u8,
            room: usize,
            written: *mut usize,
        ) -> u8;
    }
}

/// What writing can answer.
const ALL: Answers = Answers {
    cuc: &[0, 3, 7, 8],
    cds: &[0, 3, 5, 7, 8],
    ccs: &[0, 3, 5, 7, 8],
    none: &[2, 7],
};

/// Memory of any bytes, of which some before and behind are not lent.
const MEMORY: usize = 40;
const LENT: usize = 8;
const MOST: usize = 24;

/// One input to both programs: the number, the result cell and all memory in C's terms, and in Rust's.
fn compare(
    rng: &mut Rng,
    tallies: &mut Tallies,
    record: Record,
    setting: BinarySetting,
    room: usize,
) {
    let (Record { sec, ticks }, BinarySetting { p, epoch, front }) = (record, setting);
    let expected = binary::write(sec, ticks, front, p, epoch, room);
    tallies.of(Some(p)).count(&expected);
    let memory = any_bytes(rng, MEMORY);
    let (lent, mut wanted) = (LENT..LENT + room, memory.clone());
    if let Ok(code) = &expected {
        wanted[LENT..LENT + code.len()].copy_from_slice(code);
    }
    let expected = expected.map(|code| code.len());

    let before = rng.u64() as usize;
    let (mut found, mut cell) = (memory.clone(), before);
    let out = &mut found[lent.clone()];
    let number = raw::write_binary(sec, ticks, front, p, epoch, out, &mut cell);
    let all = ((number, cell), found);
    let right = (after(expected, before), wanted);
    assert_eq!(all, right, "{record:?}, {setting:02X?}, {room}");

    let mut found = memory;
    let answer = honigzange::write_binary(record, setting, &mut found[lent]);
    let all = (answer.map_err(Refusal::number), found);
    let right = (expected, right.1);
    assert_eq!(all, right, "{record:?}, {setting:02X?}, {room}");
}

/// The T-field alone and after its P octet, in a room of any size that is enough.
fn compare_both(rng: &mut Rng, tallies: &mut Tallies, record: Record, p: u8, epoch: i64) {
    for front in [false, true] {
        let room = rng.between(BINARY_ROOM as i64, MOST as i64) as usize;
        let setting = BinarySetting { p, epoch, front };
        compare(rng, tallies, record, setting, room);
    }
}

#[test]
fn every_p_octet_with_edge_epochs() {
    let (mut rng, mut tallies, moments) = (Rng::new(61), Tallies::default(), Moments::new());
    let scale = Scale::new();
    for p in 0..=u8::MAX {
        for epoch in edge_epochs() {
            let record = scale.any_record(&mut rng);
            compare_both(&mut rng, &mut tallies, record, p, epoch);
            let record = moments.record(&mut rng, p);
            compare_both(&mut rng, &mut tallies, record, p, epoch);
            let from_epoch = Record {
                sec: epoch.saturating_add(rng.between(-1, 256)),
                ticks: ticks(&mut rng),
            };
            compare_both(&mut rng, &mut tallies, from_epoch, p, epoch);
        }
    }
    let answers = Answers {
        cuc: &[0, 3, 7],
        cds: &[0, 3, 5, 7],
        ccs: &[0, 3, 5, 7],
        ..ALL
    };
    tallies.assert_each_over(500, answers);
}

/// Every room from 0 to one more than needed.
#[test]
fn every_room_of_every_layout() {
    let (mut rng, mut tallies, moments) = (Rng::new(62), Tallies::default(), Moments::new());
    for p in octets() {
        for _ in 0..fewer(300) {
            let record = moments.record(&mut rng, p);
            let epoch = moments.epoch(&mut rng, p, record.sec);
            for front in [false, true] {
                for room in 0..=length(p) + usize::from(front) + 1 {
                    let setting = BinarySetting { p, epoch, front };
                    compare(&mut rng, &mut tallies, record, setting, room);
                }
            }
        }
    }
    let answers = Answers {
        cuc: &[0, 7, 8],
        cds: &[0, 5, 7, 8],
        ccs: &[0, 5, 8],
        none: &[],
    };
    tallies.assert_each_over(5_000, answers);
}

/// Three seconds to each side of every leap second and of the ends of the cover.
#[test]
fn moments_around_each_leap_and_the_ends() {
    let (mut rng, mut tallies) = (Rng::new(63), Tallies::default());
    let centres = leaps().into_iter().map(|(sec, _)| sec);
    let centres = centres
        .chain([FIRST_SECOND, LAST_SECOND])
        .collect::<Vec<_>>();
    for p in octets() {
        for sec in centres.iter().flat_map(|centre| centre - 3..=centre + 3) {
            let day = leap::utc_of_second(sec).map_or(0, |(day, _, _)| day);
            let start = if kind(p) == Some(Kind::Cds) { day } else { sec };
            let epoch = start - rng.between(0, counts(p) - 1);
            let (step, end) = (unit(p), Record::TICKS);
            for ticks in [0, 1, step - 1, end - step, end - 1, ticks(&mut rng)] {
                compare_both(&mut rng, &mut tallies, Record { sec, ticks }, p, epoch);
            }
        }
    }
    let (each, all, covered) = (2 * 6, 29 * 7, 29 * 7 - 6);
    let Tallies { cuc, cds, ccs, .. } = tallies;
    cuc.assert_exactly(&[(0, (16 + 4) * each * all), (7, 12 * each * all)]);
    cds.assert_exactly(&[(0, 12 * each * covered), (5, 12 * each * 6)]);
    ccs.assert_exactly(&[(0, 14 * each * covered), (5, 14 * each * 6)]);
}

/// Counts of whole seconds from the epoch at both ends of their field.
#[test]
fn ends_of_each_target_of_cuc() {
    let (mut rng, mut tallies) = (Rng::new(64), Tallies::default());
    let mut good = edge_epochs();
    good.retain(|&epoch| scale::fits(40, epoch.into()));
    for p in octets_of(Kind::Cuc) {
        for &epoch in &good {
            let start = if uses_epoch(p) { epoch } else { 0 };
            for count in [-2, -1, 0, 1, counts(p) - 1, counts(p), counts(p) + 1] {
                for ticks in [0, 1, Record::TICKS - 1, ticks(&mut rng)] {
                    let sec = start + count;
                    compare_both(&mut rng, &mut tallies, Record { sec, ticks }, p, epoch);
                }
            }
        }
    }
    let each = 2 * 4 * 32 * good.len() as u64;
    tallies.cuc.assert_exactly(&[(0, 3 * each), (7, 4 * each)]);
}

/// Counts of UTC days from the epoch at both ends of their field.
#[test]
fn ends_of_each_target_of_cds() {
    let (mut rng, mut tallies) = (Rng::new(65), Tallies::default());
    for p in octets_of(Kind::Cds).into_iter().filter(|&p| uses_epoch(p)) {
        for (sec, _) in leaps() {
            for sec in [sec, sec + 1, rng.between(FIRST_SECOND, LAST_SECOND)] {
                let (day, _, _) = leap::utc_of_second(sec).expect("the second is covered");
                for count in [-2, -1, 0, 1, counts(p) - 1, counts(p), counts(p) + 1] {
                    let ticks = ticks(&mut rng);
                    let record = Record { sec, ticks };
                    compare_both(&mut rng, &mut tallies, record, p, day - count);
                }
            }
        }
    }
    let each = 2 * 27 * 3 * 6;
    tallies.cds.assert_exactly(&[(0, 3 * each), (7, 4 * each)]);
}

#[test]
fn moments_of_all_kinds() {
    let (mut rng, mut tallies, moments) = (Rng::new(66), Tallies::default(), Moments::new());
    let (good, scale) = (octets(), Scale::new());
    for _ in 0..fewer(2_000_000) {
        let mut p = rng.pick(&good);
        let mut record = moments.record(&mut rng, p);
        let epoch = moments.epoch(&mut rng, p, record.sec);
        if rng.once_in(16) {
            record = scale.any_record(&mut rng);
        }
        if rng.once_in(16) {
            p = rng.u64() as u8;
        }
        let room = rng.below(MOST as u64 + 1) as usize;
        let front = rng.once_in(2);
        let setting = BinarySetting { p, epoch, front };
        compare(&mut rng, &mut tallies, record, setting, room);
    }
    tallies.assert_each_over(1_000, ALL);
}

#[test]
fn any_bits_at_all() {
    let (mut rng, mut tallies) = (Rng::new(67), Tallies::default());
    for _ in 0..fewer(500_000) {
        let shift = rng.below(64);
        let (sec, ticks) = (rng.i64() >> shift, rng.u64() >> rng.below(64));
        let (p, front) = (rng.u64() as u8, rng.once_in(2));
        let epoch = rng.i64() >> rng.below(64);
        let room = rng.below(MOST as u64 + 1) as usize;
        let setting = BinarySetting { p, epoch, front };
        compare(&mut rng, &mut tallies, Record { sec, ticks }, setting, room);
    }
    tallies
        .cuc
        .assert_each_over(&[(0, 4_000), (3, 30_000), (7, 80_000), (8, 1_000)]);
    tallies.none.assert_each_over(&[(2, 100_000), (7, 100_000)]);
}

#[test]
fn no_room_at_null() {
    let (mut rng, moments) = (Rng::new(68), Moments::new());
    for p in 0..=u8::MAX {
        for (front, epoch) in [(true, 0), (false, 0), (false, i64::MAX)] {
            let Record { sec, ticks } = moments.record(&mut rng, p);
            let before = rng.u64() as usize;
            let mut cell = before;
            // SAFETY: a pointer to no bytes may be null, and the cell is one.
            let number = unsafe {
                c::hz_write_binary(sec, ticks, front, p, epoch, null_mut(), 0, &mut cell)
            };
            let expected = binary::write(sec, ticks, front, p, epoch, 0).map(|code| code.len());
            assert_eq!((number, cell), after(expected, before), "{p:02X}");
        }
    }
}

/// What was read, written again, is the same bytes: good codes, and good ones among the damaged.
#[test]
fn written_as_read() {
    let (mut rng, moments, good) = (Rng::new(69), Moments::new(), octets());
    let mut read = [0; 3];
    for _ in 0..fewer(1_000_000) {
        let p = rng.pick(&good);
        let (mut t, epoch) = moments.t_field(&mut rng, p);
        if rng.once_in(2) {
            damage(&mut rng, &mut t);
        }
        if let Ok((record, unread)) = honigzange::read_binary(&t, Preamble::Given(p), epoch) {
            let (mut out, front) = ([0; BINARY_ROOM], false);
            let setting = BinarySetting { p, epoch, front };
            let written = honigzange::write_binary(record, setting, &mut out);
            assert_eq!(written, Ok(t.len()), "{t:02X?}, {setting:02X?}");
            assert_eq!(out[..t.len()], t, "{setting:02X?}");
            assert!(unread.is_empty(), "{t:02X?}, {setting:02X?}");
            read[kind(p).expect("a good P octet is a code's") as usize] += 1;
        }
    }
    assert!(
        read.iter().min() > Some(&floor(80_000)),
        "too few: {read:?}"
    );
}

/// What was written, read again, is not after the source, and less than a step before it.
#[test]
fn read_as_written() {
    let (mut rng, moments, good) = (Rng::new(70), Moments::new(), octets());
    let mut done = [0; 3];
    for _ in 0..fewer(1_000_000) {
        let p = rng.pick(&good);
        let record = moments.record(&mut rng, p);
        let epoch = moments.epoch(&mut rng, p, record.sec);
        let (mut out, front) = ([0; BINARY_ROOM], true);
        let setting = BinarySetting { p, epoch, front };
        if let Ok(written) = honigzange::write_binary(record, setting, &mut out) {
            let back = honigzange::read_binary(&out[..written], Preamble::Front, epoch);
            let (back, unread) = back.expect("what was written is read");
            let lost = scale::total(record.sec, record.ticks) - scale::total(back.sec, back.ticks);
            let good = unread.is_empty() && (0..unit(p).into()).contains(&lost);
            assert!(good, "{record:?}, {setting:02X?}");
            done[kind(p).expect("a good P octet is a code's") as usize] += 1;
        }
    }
    assert!(
        done.iter().min() > Some(&floor(100_000)),
        "too few: {done:?}"
    );
}

/// Document 01's own moments, in every code, and the last tick of the leap second in some.
#[test]
fn known_codes() {
    let (leap, last, fraction) = (1_861_920_036, Record::TICKS - 1, 505_675_776_000_000);
    let downward = [
        ("1D3884A1031F", 948_216_067, fraction),
        ("1C6EFAA524", leap, last),
        ("1D6EFAA524FF", leap, last),
        ("40542D05265FE7", leap, last),
        ("5020161231235960", leap, last),
        ("512016123123596099", leap, last),
    ];
    for (text, sec, ticks) in KNOWN.into_iter().chain(downward) {
        let code = octets_of_text(text);
        let (p, epoch, front) = (code[0], i64::MIN, true);
        let mut out = [0; BINARY_ROOM];
        let setting = BinarySetting { p, epoch, front };
        let written = honigzange::write_binary(Record { sec, ticks }, setting, &mut out);
        assert_eq!(written, Ok(code.len()), "{text}");
        assert_eq!(out[..code.len()], code, "{text}");
    }
}

/// Of two faults the first in document 01's order is told. There is no room in any of these.
#[test]
fn known_refusals() {
    let (leap, before, far, never) = (1_861_920_036, 441_763_209, 1 << 40, 1 << 41);
    let known = [
        (never, 0x80, i64::MAX, Refusal::Range),
        (leap, 0x80, i64::MAX, Refusal::Identification),
        (leap, 0xF8, i64::MAX, Refusal::Identification),
        (leap, 0xAC, i64::MAX, Refusal::Unsupported),
        (before, 0x4B, i64::MAX, Refusal::Unsupported),
        (before, 0x57, i64::MAX, Refusal::Unsupported),
        (leap, 0x2C, 1 << 40, Refusal::Range),
        (before, 0x48, 1 << 24, Refusal::Range),
        (before, 0x48, (1 << 24) - 1, Refusal::Uncovered),
        (before, 0x40, i64::MAX, Refusal::Uncovered),
        (far, 0x50, i64::MAX, Refusal::Uncovered),
        (far, 0x1C, i64::MAX, Refusal::Range),
        (leap, 0x2C, leap + 1, Refusal::Range),
        (leap, 0x48, 21_550, Refusal::Range),
        (leap, 0x2C, leap, Refusal::Room),
        (leap, 0x48, 21_549, Refusal::Room),
        (leap, 0x50, i64::MAX, Refusal::Room),
    ];
    for (sec, p, epoch, refusal) in known {
        let (ticks, front) = (0, true);
        let setting = BinarySetting { p, epoch, front };
        let found = honigzange::write_binary(Record { sec, ticks }, setting, &mut []);
        assert_eq!(found, Err(refusal), "{sec}, {setting:02X?}");
    }
}
