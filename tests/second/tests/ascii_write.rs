//! Writing ASCII codes and the wall clock's text, compared with the second program, and there and back.

mod common;

use common::codes::{any_bytes, leaps, FIRST_DAY, FIRST_SECOND, LAST_DAY, LAST_SECOND};
use common::texts::{damage, length, settings, unit, Texts};
use common::{after, fewer, floor, Scale, Tally};
use honigzange::{
    raw, AsciiSetting, BinarySetting, Record, Refusal, Setting, ASCII_ROOM, WALL_ROOM,
};
use second::rng::Rng;
use second::{ascii, leap, scale};
use std::fmt::Debug;
use std::ptr::null_mut;

mod c {
    extern "C" {
        pub fn hz_write_ascii(
            sec: i64,
            ticks: u64,
            day_of_year: bool,
            digits: u8,
            z: bool,
            out: *mut u8,
            room: usize,
            written: *mut usize,
        ) -> u8;
        pub fn hz_write_wall(
            sec: i64,
            ticks: u64,
            out: *mut u8,
            room: usize,
            written: *mut usize,
        ) -> u8;
    }
}

/// Memory of any bytes, of which some before and behind are not lent.
const MEMORY: usize = 64;
const LENT: usize = 8;
const MOST: usize = 48;

/// What the second program writes.
fn second(record: Record, setting: AsciiSetting, room: usize) -> Result<Vec<u8>, u8> {
    let setting = ascii::Setting {
        by_day_of_year: setting.day_of_year,
        digits: setting.digits,
        z: setting.z,
    };
    let text = ascii::write(record.sec, record.ticks, setting, room)?;
    Ok(text.as_bytes().to_vec())
}

/// A call that writes to lent bytes must do what is expected, and to no other byte anything at all.
fn compare_written(
    rng: &mut Rng,
    input: impl Debug,
    expected: &Result<Vec<u8>, u8>,
    room: usize,
    call: impl Fn(&mut [u8], &mut usize) -> u8,
) {
    let (memory, before) = (any_bytes(rng, MEMORY), rng.u64() as usize);
    let mut wanted = memory.clone();
    if let Ok(code) = expected {
        wanted[LENT..LENT + code.len()].copy_from_slice(code);
    }
    let (mut found, mut cell) = (memory, before);
    let number = call(&mut found[LENT..LENT + room], &mut cell);
    let expected = expected.as_ref().map(Vec::len).map_err(|&number| number);
    assert_eq!((number, cell), after(expected, before), "{input:?}, {room}");
    assert_eq!(found, wanted, "{input:?}, {room}");
}

/// A call's answer in the terms of C: the number, and the cell when it is 0.
fn told(answer: Result<usize, Refusal>, cell: &mut usize) -> u8 {
    match answer {
        Ok(written) => {
            *cell = written;
            0
        }
        Err(refusal) => refusal.number(),
    }
}

/// One input to both programs, in C's terms and in Rust's.
fn compare(rng: &mut Rng, tally: &mut Tally, record: Record, setting: AsciiSetting, room: usize) {
    let (Record { sec, ticks }, AsciiSetting { digits, z, .. }) = (record, setting);
    let day_of_year = setting.day_of_year;
    let expected = second(record, setting, room);
    tally.count(&expected);
    compare_written(rng, (record, setting), &expected, room, |out, cell| {
        raw::write_ascii(sec, ticks, day_of_year, digits, z, out, cell)
    });
    compare_written(rng, (record, setting), &expected, room, |out, cell| {
        told(
            honigzange::write(record, Setting::Ascii(setting), out),
            cell,
        )
    });
}

/// The same for the wall clock's text, which has the default setting.
fn compare_wall(rng: &mut Rng, tally: &mut Tally, record: Record, room: usize) {
    let Record { sec, ticks } = record;
    let expected = ascii::write(sec, ticks, ascii::DEFAULT, room);
    let expected = expected.map(|text| text.as_bytes().to_vec());
    tally.count(&expected);
    compare_written(rng, record, &expected, room, |out, cell| {
        raw::write_wall(sec, ticks, out, cell)
    });
    compare_written(rng, record, &expected, room, |out, cell| {
        told(honigzange::write_wall(record, out), cell)
    });
}

/// A room of any size that is enough.
fn ample(rng: &mut Rng) -> usize {
    rng.between(ASCII_ROOM as i64, MOST as i64) as usize
}

/// All digits that a byte can ask for, with valid and invalid records.
#[test]
fn every_number_of_digits() {
    let (mut rng, mut tally, texts) = (Rng::new(101), Tally::default(), Texts::new());
    let scale = Scale::new();
    for digits in 0..=u8::MAX {
        for setting in settings() {
            let setting = AsciiSetting { digits, ..setting };
            for record in [texts.record(&mut rng), scale.any_record(&mut rng)] {
                let room = ample(&mut rng) * rng.below(2) as usize;
                compare(&mut rng, &mut tally, record, setting, room);
            }
        }
    }
    tally.assert_each_over(&[(0, 200), (3, 15_000), (5, 300), (7, 2_000), (8, 200)]);
}

/// Every room from 0 to one more than needed.
#[test]
fn every_room_of_every_setting() {
    let (mut rng, mut tally, texts) = (Rng::new(102), Tally::default(), Texts::new());
    for setting in settings() {
        for _ in 0..fewer(300) {
            let record = texts.record(&mut rng);
            for room in 0..=length(setting) + 1 {
                compare(&mut rng, &mut tally, record, setting, room);
            }
        }
    }
    tally.assert_each_over(&[(0, 20_000), (5, 20_000), (8, 300_000)]);
}

/// Three seconds to each side of every leap second and of the ends of the cover.
#[test]
fn moments_around_each_leap_and_the_ends() {
    let (mut rng, mut tally) = (Rng::new(103), Tally::default());
    let mut centres = leaps().into_iter().map(|(sec, _)| sec).collect::<Vec<_>>();
    centres.extend([FIRST_SECOND, LAST_SECOND]);
    for setting in settings() {
        let (step, end) = (unit(setting.digits), Record::TICKS);
        for sec in centres.iter().flat_map(|centre| centre - 3..=centre + 3) {
            for ticks in [0, 1, step / 2, step - 1, end - step, end - 1] {
                let room = ample(&mut rng);
                compare(&mut rng, &mut tally, Record { sec, ticks }, setting, room);
            }
        }
    }
    let (each, outside) = (52 * 6, 6);
    tally.assert_exactly(&[(0, each * (29 * 7 - outside)), (5, each * outside)]);
}

/// The first and the last second of every day of the cover, in both forms and on the wall.
#[test]
fn every_day_of_the_cover() {
    let (mut rng, mut tally, texts) = (Rng::new(104), Tally::default(), Texts::new());
    for day in FIRST_DAY..=LAST_DAY {
        for second in [0, 86_399, 86_400, rng.below(86_400)] {
            let Ok(sec) = leap::second_of_utc(day, second) else {
                continue;
            };
            for day_of_year in [false, true] {
                let record = Record {
                    sec,
                    ..texts.record(&mut rng)
                };
                let setting = texts.setting(&mut rng);
                let (setting, room) = (
                    AsciiSetting {
                        day_of_year,
                        ..setting
                    },
                    ample(&mut rng),
                );
                compare(&mut rng, &mut tally, record, setting, room);
                compare_wall(&mut rng, &mut tally, record, room);
            }
        }
    }
    let (days, leaps) = (19_724, 27);
    tally.assert_exactly(&[(0, 2 * 2 * (3 * days + leaps))]);
}

/// Every step of up to three digits, and the ticks around it.
#[test]
fn every_short_fraction() {
    let (mut rng, mut tally, texts) = (Rng::new(105), Tally::default(), Texts::new());
    for digits in 0..=3 {
        let step = unit(digits);
        for count in 0..Record::TICKS / step {
            for ticks in [step * count, step * count + 1, step * (count + 1) - 1] {
                let record = Record {
                    ticks,
                    ..texts.record(&mut rng)
                };
                let setting = texts.setting(&mut rng);
                let (setting, room) = (AsciiSetting { digits, ..setting }, ample(&mut rng));
                compare(&mut rng, &mut tally, record, setting, room);
                compare_wall(&mut rng, &mut tally, record, room);
            }
        }
    }
    tally.assert_each_over(&[(0, 5_000), (5, 300)]);
}

#[test]
fn moments_of_all_kinds() {
    let (mut rng, mut tally, texts) = (Rng::new(106), Tally::default(), Texts::new());
    let scale = Scale::new();
    for _ in 0..fewer(2_000_000) {
        let (mut record, mut setting) = (texts.record(&mut rng), texts.setting(&mut rng));
        if rng.once_in(16) {
            record = scale.any_record(&mut rng);
        }
        if rng.once_in(16) {
            setting.digits = rng.u64() as u8;
        }
        let room = rng.below(MOST as u64 + 1) as usize;
        compare(&mut rng, &mut tally, record, setting, room);
    }
    tally.assert_each_over(&[
        (0, 500_000),
        (3, 50_000),
        (5, 100_000),
        (7, 20_000),
        (8, 500_000),
    ]);
}

#[test]
fn any_bits_at_all() {
    let (mut rng, mut tally) = (Rng::new(107), Tally::default());
    for _ in 0..fewer(500_000) {
        let shift = rng.below(64);
        let (sec, ticks) = (rng.i64() >> shift, rng.u64() >> rng.below(64));
        let setting = AsciiSetting {
            day_of_year: rng.once_in(2),
            digits: rng.u64() as u8 >> rng.below(8),
            z: rng.once_in(2),
        };
        let room = rng.below(MOST as u64 + 1) as usize;
        compare(&mut rng, &mut tally, Record { sec, ticks }, setting, room);
        compare_wall(&mut rng, &mut tally, Record { sec, ticks }, room);
    }
    tally.assert_each_over(&[
        (0, 1_000),
        (3, 50_000),
        (5, 200_000),
        (7, 300_000),
        (8, 1_000),
    ]);
}

#[test]
fn walls_of_all_kinds() {
    let (mut rng, mut tally, texts) = (Rng::new(108), Tally::default(), Texts::new());
    let scale = Scale::new();
    for _ in 0..fewer(500_000) {
        let mut record = texts.record(&mut rng);
        if rng.once_in(16) {
            record = scale.any_record(&mut rng);
        }
        let room = match rng.below(4) {
            0 => rng.below(MOST as u64 + 1) as usize,
            _ => rng.between(WALL_ROOM as i64 - 1, WALL_ROOM as i64 + 2) as usize,
        };
        compare_wall(&mut rng, &mut tally, record, room);
    }
    tally.assert_each_over(&[(0, 250_000), (5, 30_000), (7, 5_000), (8, 80_000)]);
}

#[test]
fn no_room_at_null() {
    let (mut rng, texts, kinds) = (Rng::new(109), Texts::new(), Scale::new());
    for digits in 0..=u8::MAX {
        for record in [texts.record(&mut rng), kinds.any_record(&mut rng)] {
            let (Record { sec, ticks }, before) = (record, rng.u64() as usize);
            let setting = AsciiSetting {
                digits,
                ..texts.setting(&mut rng)
            };
            let (mut cell, mut wall) = (before, before);
            // SAFETY: a pointer to no bytes may be null, and the cell is one.
            let number = unsafe {
                let AsciiSetting { day_of_year, z, .. } = setting;
                c::hz_write_ascii(sec, ticks, day_of_year, digits, z, null_mut(), 0, &mut cell)
            };
            let expected = second(record, setting, 0).map(|code| code.len());
            assert_eq!(
                (number, cell),
                after(expected, before),
                "{record:?}, {digits}"
            );
            // SAFETY: as before.
            let number = unsafe { c::hz_write_wall(sec, ticks, null_mut(), 0, &mut wall) };
            let expected = second(record, AsciiSetting::default(), 0).map(|code| code.len());
            assert_eq!((number, wall), after(expected, before), "{record:?}");
        }
    }
}

/// The setting in which a good text is written.
fn setting_of(text: &[u8]) -> AsciiSetting {
    let z = text.ends_with(b"Z");
    let period = text.iter().position(|&byte| byte == b'.');
    AsciiSetting {
        day_of_year: text[7] != b'-',
        digits: period.map_or(0, |period| text.len() - period - 1 - usize::from(z)) as u8,
        z,
    }
}

/// What was read, written again, is the same bytes: good texts, and good ones among the damaged.
#[test]
fn written_as_read() {
    let (mut rng, texts, mut read) = (Rng::new(110), Texts::new(), 0);
    for _ in 0..fewer(1_000_000) {
        let mut text = texts.text(&mut rng);
        if rng.once_in(2) {
            damage(&mut rng, &mut text);
        }
        if let Ok(record) = honigzange::read_ascii(&text) {
            let (setting, mut out) = (setting_of(&text), [0; ASCII_ROOM]);
            let written = honigzange::write_ascii(record, setting, &mut out);
            assert_eq!(written, Ok(text.len()), "{}", text.escape_ascii());
            assert_eq!(out[..text.len()], text, "{}", text.escape_ascii());
            read += 1;
        }
    }
    assert!(read > floor(250_000), "too few: {read}");
}

/// What was written, read again, is not after the source, and less than a step before it.
#[test]
fn read_as_written() {
    let (mut rng, texts, mut done) = (Rng::new(111), Texts::new(), 0);
    for _ in 0..fewer(1_000_000) {
        let (record, setting) = (texts.record(&mut rng), texts.setting(&mut rng));
        let mut out = [0; ASCII_ROOM];
        if let Ok(written) = honigzange::write_ascii(record, setting, &mut out) {
            let back = honigzange::read_ascii(&out[..written]).expect("what was written is read");
            let lost = scale::total(record.sec, record.ticks) - scale::total(back.sec, back.ticks);
            let good = (0..unit(setting.digits).into()).contains(&lost);
            assert!(good, "{record:?}, {setting:?}");
            done += 1;
        }
    }
    assert!(done > floor(800_000), "too few: {done}");
}

/// In one setting the texts have the order of their moments.
#[test]
fn later_moments_have_no_earlier_texts() {
    let (mut rng, texts, mut done) = (Rng::new(112), Texts::new(), 0);
    for _ in 0..fewer(500_000) {
        let (earlier, setting) = (texts.record(&mut rng), texts.setting(&mut rng));
        let later = Record {
            sec: earlier.sec + rng.between(0, 2),
            ticks: texts.record(&mut rng).ticks,
        };
        let (mut first, mut second) = ([0; ASCII_ROOM], [0; ASCII_ROOM]);
        let both = honigzange::write_ascii(earlier, setting, &mut first)
            .and_then(|_| honigzange::write_ascii(later, setting, &mut second));
        if both.is_ok() && earlier <= later {
            assert!(first <= second, "{earlier:?}, {later:?}, {setting:?}");
            done += 1;
        }
    }
    assert!(done > floor(300_000), "too few: {done}");
}

/// One setting for every code does as the code's own call.
#[test]
fn one_setting_for_every_code() {
    let (mut rng, texts) = (Rng::new(113), Texts::new());
    assert_eq!(Setting::default(), Setting::Ascii(AsciiSetting::default()));
    for _ in 0..fewer(100_000) {
        let record = texts.record(&mut rng);
        let (mut one, mut other) = ([0; MOST], [0; MOST]);
        let binary = BinarySetting {
            p: rng.u64() as u8,
            epoch: rng.i64() >> rng.below(64),
            front: rng.once_in(2),
        };
        let answer = honigzange::write(record, Setting::Binary(binary), &mut one);
        let wanted = honigzange::write_binary(record, binary, &mut other);
        assert_eq!((answer, one), (wanted, other), "{record:?}, {binary:?}");
        let answer = honigzange::write(record, Setting::default(), &mut one);
        let wanted = honigzange::write_wall(record, &mut other);
        assert_eq!((answer, one), (wanted, other), "{record:?}");
    }
}

/// Document 01's own moments, and the last ticks of its leap second.
#[test]
fn known_texts() {
    let (leap, last, fraction) = (1_861_920_036, Record::TICKS - 1, 505_675_776_000_000);
    let known = [
        ("1988-018T17:20:43.123456Z", 948_216_067, fraction),
        (
            "1988-018T17:20:43.121093Z",
            948_216_067,
            Record::TICKS / 256 * 31,
        ),
        ("1988-01-18T17:20:43.123", 948_216_067, fraction),
        ("1988-01-18T17:20:43.123456000000Z", 948_216_067, fraction),
        ("2016-12-31T23:59:59", leap - 1, last),
        ("2016-12-31T23:59:60.000Z", leap, 0),
        ("2016-366T23:59:60", leap, last),
        ("2016-12-31T23:59:60.9", leap, last),
        ("2016-366T23:59:60.999999999999Z", leap, last),
        ("2017-01-01T00:00:00.000000", leap + 1, 0),
        ("1972-001T00:00:00Z", 441_763_210, 0),
        ("2025-12-31T23:59:59.999Z", 2_145_916_836, last),
    ];
    for (text, sec, ticks) in known {
        let (record, setting) = (Record { sec, ticks }, setting_of(text.as_bytes()));
        let mut out = [0; ASCII_ROOM];
        let written = honigzange::write_ascii(record, setting, &mut out);
        assert_eq!(written, Ok(text.len()), "{text}");
        assert_eq!(&out[..text.len()], text.as_bytes(), "{text}");
    }
    let mut face = [0; WALL_ROOM];
    let record = Record {
        sec: leap,
        ticks: last,
    };
    assert_eq!(honigzange::write_wall(record, &mut face), Ok(WALL_ROOM));
    assert_eq!(&face, b"2016-12-31T23:59:60.999Z");
}

/// Of two faults the first in document 01's order is told. There is no room in any of these.
#[test]
fn known_refusals() {
    let (leap, before, past, never) = (1_861_920_036, 441_763_209, 2_145_916_837, 1 << 41);
    let known = [
        (never, 0, 13, Refusal::Range),
        (-never - 1, 0, 255, Refusal::Range),
        (leap, Record::TICKS, 13, Refusal::Range),
        (before, 0, 13, Refusal::Unsupported),
        (leap, 0, 255, Refusal::Unsupported),
        (before, Record::TICKS - 1, 12, Refusal::Uncovered),
        (past, 0, 0, Refusal::Uncovered),
        (never - 1, 0, 3, Refusal::Uncovered),
        (leap, 0, 12, Refusal::Room),
        (leap, 0, 0, Refusal::Room),
    ];
    for (sec, ticks, digits, refusal) in known {
        let setting = AsciiSetting {
            digits,
            ..AsciiSetting::default()
        };
        let found = honigzange::write_ascii(Record { sec, ticks }, setting, &mut []);
        assert_eq!(found, Err(refusal), "{sec}, {ticks}, {digits}");
    }
}
