//! Reading ASCII codes, compared with the second program.

mod common;

use common::codes::{any_bytes, FIRST_DAY, LAST_DAY};
use common::texts::{any_characters, any_digits, damage, date, plain_time, settings, text, Texts};
use common::{after, fewer, Tally};
use honigzange::{raw, AsciiSetting, Record, Refusal};
use second::ascii;
use second::rng::Rng;
use std::ptr::null;

mod c {
    extern "C" {
        pub fn hz_read_ascii(text: *const u8, len: usize, sec: *mut i64, ticks: *mut u64) -> u8;
    }
}

/// One text to both programs: the number and the result cells in C's terms, and the answer in Rust's.
fn compare(rng: &mut Rng, tally: &mut Tally, text: &[u8]) {
    let expected = ascii::read(text);
    tally.count(&expected);
    let before = (rng.i64(), rng.u64());
    let (mut sec, mut ticks) = before;
    let number = raw::read_ascii(text, &mut sec, &mut ticks);
    let wanted = after(expected, before);
    assert_eq!((number, (sec, ticks)), wanted, "{}", text.escape_ascii());
    let found = honigzange::read_ascii(text)
        .map(|record| (record.sec, record.ticks))
        .map_err(Refusal::number);
    assert_eq!(found, expected, "{}", text.escape_ascii());
}

/// Every shape of a good code, and 13 or more digits or a period alone.
#[test]
fn every_shape() {
    let (mut rng, mut tally, texts) = (Rng::new(81), Tally::default(), Texts::new());
    let each = fewer(500);
    for setting in settings() {
        for _ in 0..each {
            let text = texts.good_text(&mut rng, setting);
            compare(&mut rng, &mut tally, &text);
        }
    }
    for mut setting in settings().into_iter().filter(|setting| setting.digits < 5) {
        for _ in 0..each {
            setting.digits = setting.digits % 5 + 13;
            let text = texts.good_text(&mut rng, setting);
            compare(&mut rng, &mut tally, &text);
            let mut alone = texts.good_text(
                &mut rng,
                AsciiSetting {
                    digits: 1,
                    ..setting
                },
            );
            alone.remove(alone.len() - 1 - usize::from(setting.z));
            compare(&mut rng, &mut tally, &alone);
        }
    }
    tally.assert_exactly(&[(0, 52 * each), (4, 2 * 20 * each)]);
}

/// Each byte of a code takes every value.
#[test]
fn every_change_of_one_byte() {
    let (mut rng, mut tally, texts) = (Rng::new(82), Tally::default(), Texts::new());
    for setting in settings() {
        for _ in 0..fewer(4) {
            let mut text = texts.good_text(&mut rng, setting);
            for place in 0..text.len() {
                let kept = text[place];
                for byte in 0..=u8::MAX {
                    text[place] = byte;
                    compare(&mut rng, &mut tally, &text);
                }
                text[place] = kept;
            }
        }
    }
    tally.assert_each_over(&[(0, 20_000), (4, 1_000_000), (5, 1_000), (6, 50)]);
}

/// Every byte is put at every place of a code, before and after it too.
#[test]
fn every_byte_inserted() {
    let (mut rng, mut tally, texts) = (Rng::new(83), Tally::default(), Texts::new());
    for setting in settings() {
        for _ in 0..fewer(2) {
            let text = texts.good_text(&mut rng, setting);
            for place in 0..=text.len() {
                let mut longer = text.clone();
                longer.insert(place, 0);
                for byte in 0..=u8::MAX {
                    longer[place] = byte;
                    compare(&mut rng, &mut tally, &longer);
                }
            }
        }
    }
    tally.assert_each_over(&[(0, 5_000), (4, 500_000)]);
}

/// Every run of bytes is cut out of a code, its ends too.
#[test]
fn every_run_removed() {
    let (mut rng, mut tally, texts) = (Rng::new(84), Tally::default(), Texts::new());
    for setting in settings() {
        for _ in 0..fewer(25) {
            let text = texts.good_text(&mut rng, setting);
            for start in 0..=text.len() {
                for end in start..=text.len() {
                    let shorter = [&text[..start], &text[end..]].concat();
                    compare(&mut rng, &mut tally, &shorter);
                }
                // What was cut off lies behind what is left.
                compare(&mut rng, &mut tally, &text[..start]);
            }
        }
    }
    tally.assert_each_over(&[(0, 30_000), (1, 1_000), (4, 400_000), (6, 100)]);
}

/// Every run of bytes of a code stands twice.
#[test]
fn every_run_doubled() {
    let (mut rng, mut tally, texts) = (Rng::new(85), Tally::default(), Texts::new());
    for setting in settings() {
        for _ in 0..fewer(15) {
            let text = texts.good_text(&mut rng, setting);
            for start in 0..text.len() {
                for end in start + 1..=text.len() {
                    let longer = [&text[..end], &text[start..]].concat();
                    compare(&mut rng, &mut tally, &longer);
                }
            }
        }
    }
    tally.assert_each_over(&[(0, 5_000), (4, 200_000)]);
}

/// Runs of digits and other tails so long that a narrower count would take them for good ones.
#[test]
fn long_texts() {
    let (mut rng, mut tally, texts) = (Rng::new(86), Tally::default(), Texts::new());
    for setting in settings() {
        let text = texts.good_text(&mut rng, setting);
        let (digits, z) = (0, false);
        let setting = AsciiSetting {
            digits,
            z,
            ..setting
        };
        let whole = texts.good_text(&mut rng, setting);
        for length in (1..300).chain(65_500..65_600).chain([100_000]) {
            let tail = vec![rng.pick(b"0Z \0."); length];
            compare(&mut rng, &mut tally, &[&text[..], &tail].concat());
            let digits = vec![b'0' + rng.below(10) as u8; length];
            compare(&mut rng, &mut tally, &[&whole[..], b".", &digits].concat());
        }
    }
    tally.assert_each_over(&[(0, 600), (4, 40_000)]);
}

/// Both forms of the date in every edge year, good and bad.
#[test]
fn every_date_of_edge_years() {
    let (mut rng, mut tally, texts) = (Rng::new(87), Tally::default(), Texts::new());
    let times = ["00:00:00", "12:00:00", "23:59:59", "23:59:60", "24:00:00"];
    let covered = [1972, 1973, 2000, 2015, 2016, 2025];
    let outside = [0, 1, 1900, 1971, 2026, 2100, 9999];
    for year in covered.into_iter().chain(outside) {
        let by_month = (0..=9_999).map(|date| format!("{:02}-{:02}", date / 100, date % 100));
        let by_day = (0..=999).flat_map(|day| vec![format!("{day:03}"); 5]);
        for date in by_month.chain(by_day) {
            let (setting, time) = (texts.setting(&mut rng), rng.pick(&times));
            let text = text(&mut rng, setting, &format!("{year:04}-{date}"), time);
            compare(&mut rng, &mut tally, &text);
        }
    }
    tally.assert_each_over(&[(0, 5_000), (4, 150_000), (5, 5_000), (6, 1_500)]);
}

#[test]
fn edge_dates_of_every_year() {
    let (mut rng, mut tally, texts) = (Rng::new(88), Tally::default(), Texts::new());
    let by_month = [
        "00-01", "01-00", "01-01", "02-28", "02-29", "02-30", "12-31", "12-32", "13-01",
    ];
    let by_day = ["000", "001", "060", "365", "366", "367"];
    for year in 0..=9_999 {
        for date in by_month.into_iter().chain(by_day) {
            let (setting, time) = (texts.setting(&mut rng), plain_time(&mut rng));
            let text = text(&mut rng, setting, &format!("{year:04}-{date}"), &time);
            compare(&mut rng, &mut tally, &text);
        }
    }
    let (years, leap_years, covered, covered_leap_years) = (9_999, 2_424, 54, 14);
    let (good, all) = (6 * years + 2 * leap_years, 15 * 10_000);
    let done = 6 * covered + 2 * covered_leap_years;
    tally.assert_exactly(&[(0, done), (4, all - good), (5, good - done)]);
}

/// All six digits of the time, on the last day of a year in the cover or outside it.
#[test]
fn every_time() {
    let (mut rng, mut tally, texts) = (Rng::new(89), Tally::default(), Texts::new());
    let days = [21_549, LAST_DAY, LAST_DAY + 365];
    for time in 0..1_000_000 {
        let (setting, day) = (texts.setting(&mut rng), rng.pick(&days));
        let (hour, minute, second) = (time / 10_000, time / 100 % 100, time % 100);
        let time = format!("{hour:02}:{minute:02}:{second:02}");
        let text = text(&mut rng, setting, &date(setting.day_of_year, day), &time);
        compare(&mut rng, &mut tally, &text);
    }
    let (done, refused) = (86_400, 1_000_000 - 86_401);
    tally.assert_over(done / 2, refused);
}

/// Around midnight on every day of the cover, and on some outside it.
#[test]
fn last_seconds_of_every_day() {
    let (mut rng, mut tally, texts) = (Rng::new(90), Tally::default(), Texts::new());
    let times = [
        "00:00:00", "23:59:59", "23:59:60", "23:59:61", "23:58:60", "22:59:60",
    ];
    for day in FIRST_DAY - 400..=LAST_DAY + 400 {
        for time in times {
            for day_of_year in [false, true] {
                let setting = texts.setting(&mut rng);
                let text = text(&mut rng, setting, &date(day_of_year, day), time);
                compare(&mut rng, &mut tally, &text);
            }
        }
    }
    let (days, outside, leaps) = (19_724, 800, 27);
    tally.assert_exactly(&[
        (0, 2 * (2 * days + leaps)),
        (4, 2 * 3 * (days + outside)),
        (5, 2 * 3 * outside),
        (6, 2 * (days - leaps)),
    ]);
}

/// Every fraction of up to four digits: its value times a second's ticks, exactly.
#[test]
fn every_short_fraction() {
    let (mut rng, mut tally) = (Rng::new(91), Tally::default());
    for digits in 1..=4 {
        let parts = 10u64.pow(digits);
        for fraction in 0..parts {
            let text = format!(
                "2016-12-31T23:59:60.{fraction:0width$}",
                width = digits as usize
            );
            compare(&mut rng, &mut tally, text.as_bytes());
            let record = honigzange::read_ascii(text.as_bytes()).expect("the text is good");
            let exact = u128::from(fraction) * u128::from(Record::TICKS);
            assert_eq!(
                u128::from(record.ticks) * u128::from(parts),
                exact,
                "{text}"
            );
        }
    }
    tally.assert_exactly(&[(0, 11_110)]);
}

/// Texts of right shape, every second one damaged, and some of these twice.
#[test]
fn texts_of_all_kinds() {
    let (mut rng, mut tally, texts) = (Rng::new(92), Tally::default(), Texts::new());
    for _ in 0..fewer(3_000_000) {
        let mut text = texts.text(&mut rng);
        if rng.once_in(2) {
            damage(&mut rng, &mut text);
        }
        if rng.once_in(8) && !text.is_empty() {
            damage(&mut rng, &mut text);
        }
        compare(&mut rng, &mut tally, &text);
    }
    tally.assert_each_over(&[
        (0, 700_000),
        (1, 3_000),
        (4, 1_000_000),
        (5, 100_000),
        (6, 100_000),
    ]);
}

#[test]
fn any_text_at_all() {
    let (mut rng, mut tally, texts) = (Rng::new(93), Tally::default(), Texts::new());
    for _ in 0..fewer(1_000_000) {
        let (setting, count) = (texts.setting(&mut rng), rng.below(40) as usize);
        let text = match rng.below(4) {
            0 => any_bytes(&mut rng, count),
            1 => any_characters(&mut rng, count),
            _ => any_digits(&mut rng, setting),
        };
        compare(&mut rng, &mut tally, &text);
    }
    tally.assert_each_over(&[(0, 20), (1, 5_000), (4, 900_000), (5, 5_000)]);
}

#[test]
fn no_text_at_null() {
    let mut rng = Rng::new(94);
    for _ in 0..100 {
        let before = (rng.i64(), rng.u64());
        let (mut sec, mut ticks) = before;
        // SAFETY: a pointer to no bytes may be null, and the cells are two.
        let number = unsafe { c::hz_read_ascii(null(), 0, &mut sec, &mut ticks) };
        assert_eq!((number, (sec, ticks)), (1, before));
    }
}

/// Document 01's own moments, in both forms, and the seconds before and after its leap second.
#[test]
fn known_texts() {
    let known = [
        (
            "1988-018T17:20:43.123456Z",
            948_216_067,
            505_675_776_000_000,
        ),
        (
            "1988-01-18T17:20:43.123456Z",
            948_216_067,
            505_675_776_000_000,
        ),
        (
            "1988-01-18T17:20:43.123456000000",
            948_216_067,
            505_675_776_000_000,
        ),
        ("2016-12-31T23:59:59", 1_861_920_035, 0),
        ("2016-12-31T23:59:60", 1_861_920_036, 0),
        ("2016-366T23:59:60Z", 1_861_920_036, 0),
        ("2016-12-31T23:59:60.5", 1_861_920_036, Record::TICKS / 2),
        (
            "2016-366T23:59:60.999999999999Z",
            1_861_920_036,
            Record::TICKS - 4_096,
        ),
        ("2017-01-01T00:00:00", 1_861_920_037, 0),
        ("1972-01-01T00:00:00Z", 441_763_210, 0),
        ("1972-06-30T23:59:60", 457_488_010, 0),
        ("2025-12-31T23:59:59.000000000001Z", 2_145_916_836, 4_096),
    ];
    for (text, sec, ticks) in known {
        let found = honigzange::read_ascii(text.as_bytes());
        assert_eq!(found, Ok(Record { sec, ticks }), "{text}");
    }
}

/// Shapes and fields that break their rule, most of them on a day with a leap second.
#[test]
fn known_faults() {
    let known = [
        " ",
        "Z",
        "2016-12-31",
        "2016-12-31T23:59",
        "2016-12-31T23:59:61",
        "2016-12-31T23:58:60",
        "2016-12-31T22:59:60",
        "2016-12-31t23:59:60",
        "2016-12-31T23:59:60z",
        "2016-12-31 23:59:60",
        "2016-12-31T23:59:60Z ",
        "2016-12-31T23:59:60ZZ",
        " 2016-12-31T23:59:60",
        "2016-12-31T23:59:60\0",
        "2016-12-31T23:59:60\n",
        "2016-12-31T23:59:60.",
        "2016-12-31T23:59:60.Z",
        "2016-12-31T23:59:60,5",
        "2016-12-31T23:59:60.0000000000000",
        "+016-12-31T23:59:60",
        "0000-01-01T00:00:00",
        "2023-366T00:00:00",
        "1900-02-29T00:00:00",
    ];
    for text in known {
        let found = honigzange::read_ascii(text.as_bytes());
        assert_eq!(found, Err(Refusal::Field), "{}", text.escape_debug());
    }
}

/// Document 01's own, and of two faults the first in its order.
#[test]
fn known_refusals() {
    let known = [
        ("", Refusal::Short),
        ("2016-12-31T12:00:60", Refusal::Field),
        ("2026-01-01T12:00:60", Refusal::Field),
        ("2026-13-01T00:00:00", Refusal::Field),
        ("2026-01-01T00:00:00", Refusal::Uncovered),
        ("2026-12-31T23:59:60", Refusal::Uncovered),
        ("1971-12-31T23:59:59", Refusal::Uncovered),
        ("9999-365T23:59:60Z", Refusal::Uncovered),
        ("0001-01-01T00:00:00", Refusal::Uncovered),
        ("2015-12-31T23:59:60", Refusal::NoSuchSecond),
        ("2025-365T23:59:60.5Z", Refusal::NoSuchSecond),
    ];
    for (text, refusal) in known {
        let found = honigzange::read_ascii(text.as_bytes());
        assert_eq!(found, Err(refusal), "{text}");
    }
}
