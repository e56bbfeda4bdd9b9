//! Dates, days of the year and day numbers, compared with the second program.

mod common;

use common::{after, fewer, widened, Tally};
use honigzange::{raw, Date, Ordinal, Refusal, FIRST_DAY, LAST_DAY};
use second::calendar;
use second::rng::{i64_edges, u64_edges, Rng};

/// The days of the calendar.
const ALL: u64 = 3_652_059;

/// One input to both programs: the number and the result cells in C's terms, and the answer in Rust's.
fn compare_day_of_date(rng: &mut Rng, tally: &mut Tally, date: Date) {
    let Date { year, month, day } = date;
    let expected = calendar::day_of_date(year, month, day);
    tally.count(&expected);
    let before = rng.i64();
    let mut cell = before;
    let number = raw::day_of_date(year, month, day, &mut cell);
    assert_eq!((number, cell), after(expected, before), "{date:?}");
    let answer = honigzange::day_of_date(date);
    assert_eq!(answer.map_err(Refusal::number), expected, "{date:?}");
}

fn compare_date_of_day(rng: &mut Rng, tally: &mut Tally, day: i64) {
    let expected = calendar::date_of_day(day);
    tally.count(&expected);
    let before = (rng.u64(), rng.u64(), rng.u64());
    let mut cells = before;
    let number = raw::date_of_day(day, &mut cells.0, &mut cells.1, &mut cells.2);
    assert_eq!((number, cells), after(expected, before), "day {day}");
    let answer = honigzange::date_of_day(day).map(|date| (date.year, date.month, date.day));
    assert_eq!(answer.map_err(Refusal::number), expected, "day {day}");
}

fn compare_day_of_ordinal(rng: &mut Rng, tally: &mut Tally, ordinal: Ordinal) {
    let expected = calendar::day_of_ordinal(ordinal.year, ordinal.day);
    tally.count(&expected);
    let before = rng.i64();
    let mut cell = before;
    let number = raw::day_of_ordinal(ordinal.year, ordinal.day, &mut cell);
    assert_eq!((number, cell), after(expected, before), "{ordinal:?}");
    let answer = honigzange::day_of_ordinal(ordinal);
    assert_eq!(answer.map_err(Refusal::number), expected, "{ordinal:?}");
}

fn compare_ordinal_of_day(rng: &mut Rng, tally: &mut Tally, day: i64) {
    let expected = calendar::ordinal_of_day(day);
    tally.count(&expected);
    let before = (rng.u64(), rng.u64());
    let mut cells = before;
    let number = raw::ordinal_of_day(day, &mut cells.0, &mut cells.1);
    assert_eq!((number, cells), after(expected, before), "day {day}");
    let answer = honigzange::ordinal_of_day(day).map(|ordinal| (ordinal.year, ordinal.day));
    assert_eq!(answer.map_err(Refusal::number), expected, "day {day}");
}

#[test]
fn both_programs_have_the_same_ends() {
    assert_eq!(calendar::day_of_date(1, 1, 1), Ok(FIRST_DAY));
    assert_eq!(calendar::day_of_date(9999, 12, 31), Ok(LAST_DAY));
    assert_eq!(FIRST_DAY.abs_diff(LAST_DAY) + 1, ALL);
}

#[test]
fn every_date_of_every_day_number() {
    let (mut rng, mut tally) = (Rng::new(11), Tally::default());
    for day in FIRST_DAY - 1_000..=LAST_DAY + 1_000 {
        compare_date_of_day(&mut rng, &mut tally, day);
    }
    tally.assert_exactly(&[(0, ALL), (7, 2_000)]);
}

#[test]
fn every_ordinal_of_every_day_number() {
    let (mut rng, mut tally) = (Rng::new(12), Tally::default());
    for day in FIRST_DAY - 1_000..=LAST_DAY + 1_000 {
        compare_ordinal_of_day(&mut rng, &mut tally, day);
    }
    tally.assert_exactly(&[(0, ALL), (7, 2_000)]);
}

#[test]
fn every_day_number_of_every_date() {
    let (mut rng, mut tally) = (Rng::new(13), Tally::default());
    for year in 0..=10_000 {
        for month in 0..=13 {
            for day in 0..=32 {
                compare_day_of_date(&mut rng, &mut tally, Date { year, month, day });
            }
        }
    }
    tally.assert_exactly(&[(0, ALL), (4, 10_001 * 14 * 33 - ALL)]);
}

#[test]
fn every_day_number_of_every_ordinal() {
    let (mut rng, mut tally) = (Rng::new(14), Tally::default());
    for year in 0..=10_000 {
        for day in 0..=367 {
            compare_day_of_ordinal(&mut rng, &mut tally, Ordinal { year, day });
        }
    }
    tally.assert_exactly(&[(0, ALL), (4, 10_001 * 368 - ALL)]);
}

#[test]
fn there_and_back_is_every_day() {
    for day in FIRST_DAY..=LAST_DAY {
        let date = honigzange::date_of_day(day);
        assert_eq!(date.and_then(honigzange::day_of_date), Ok(day));
        let ordinal = honigzange::ordinal_of_day(day);
        assert_eq!(ordinal.and_then(honigzange::day_of_ordinal), Ok(day));
    }
}

#[test]
fn dates_of_all_edges() {
    let (mut rng, mut tally) = (Rng::new(15), Tally::default());
    for year in u64_edges(&[1900, 2000, 9999, 1 << 16, 1 << 32, 1 << 63]) {
        for month in u64_edges(&[12, 1 << 8, 1 << 32, 1 << 63]) {
            for day in u64_edges(&[28, 31, 1 << 8, 1 << 32, 1 << 63]) {
                compare_day_of_date(&mut rng, &mut tally, Date { year, month, day });
            }
        }
    }
    tally.assert_each_over(&[(0, 400), (4, 10_000)]);
}

#[test]
fn ordinals_of_all_edges() {
    let (mut rng, mut tally) = (Rng::new(16), Tally::default());
    for year in u64_edges(&[1900, 2000, 9999, 1 << 16, 1 << 32, 1 << 63]) {
        for day in u64_edges(&[31, 60, 365, 1 << 16, 1 << 32, 1 << 63]) {
            compare_day_of_ordinal(&mut rng, &mut tally, Ordinal { year, day });
        }
    }
    tally.assert_each_over(&[(0, 100), (4, 300)]);
}

#[test]
fn day_numbers_of_all_edges() {
    let (mut rng, mut tally) = (Rng::new(17), Tally::default());
    for day in i64_edges(&[FIRST_DAY, LAST_DAY, -1 << 32, -1 << 31, 1 << 31, 1 << 32]) {
        compare_date_of_day(&mut rng, &mut tally, day);
        compare_ordinal_of_day(&mut rng, &mut tally, day);
    }
    tally.assert_each_over(&[(0, 20), (7, 40)]);
}

/// A field of a date: mostly from 0 to one past its last value, sometimes that widened, or anything.
fn field(rng: &mut Rng, last: u64) -> u64 {
    let good = rng.below(last + 2);
    match rng.below(16) {
        0 => rng.u64(),
        1 => widened(rng, good),
        _ => good,
    }
}

#[test]
fn dates_of_all_kinds() {
    let (mut rng, mut dates, mut ordinals) = (Rng::new(18), Tally::default(), Tally::default());
    for _ in 0..fewer(1_000_000) {
        let year = field(&mut rng, 9999);
        let (month, day) = (field(&mut rng, 12), field(&mut rng, 31));
        compare_day_of_date(&mut rng, &mut dates, Date { year, month, day });
        let day = field(&mut rng, 366);
        compare_day_of_ordinal(&mut rng, &mut ordinals, Ordinal { year, day });
    }
    dates.assert_each_over(&[(0, 400_000), (4, 400_000)]);
    ordinals.assert_each_over(&[(0, 600_000), (4, 200_000)]);
}

#[test]
fn day_numbers_of_all_kinds() {
    let (mut rng, mut tally) = (Rng::new(19), Tally::default());
    for _ in 0..fewer(1_000_000) {
        let good = rng.between(FIRST_DAY, LAST_DAY);
        let day = match rng.below(4) {
            0 => rng.i64(),
            1 => widened(&mut rng, good as u64) as i64,
            2 => rng.between(2 * FIRST_DAY, 2 * LAST_DAY),
            _ => good,
        };
        compare_date_of_day(&mut rng, &mut tally, day);
        compare_ordinal_of_day(&mut rng, &mut tally, day);
    }
    tally.assert_each_over(&[(0, 600_000), (7, 600_000)]);
}

/// Document 01's own: the ends, the epoch, and dates of its table.
#[test]
fn known_days() {
    let known = [
        (1, 1, 1, -714_779),
        (1958, 1, 1, 0),
        (1972, 1, 1, 5_113),
        (2016, 12, 31, 21_549),
        (2025, 12, 31, 24_836),
        (9999, 12, 31, 2_937_279),
    ];
    for (year, month, day, number) in known {
        let date = Date { year, month, day };
        assert_eq!(honigzange::day_of_date(date), Ok(number));
        assert_eq!(honigzange::date_of_day(number), Ok(date));
    }
}
