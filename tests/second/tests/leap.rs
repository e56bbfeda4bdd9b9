//! UTC readings and TAI seconds, compared with the second program.

mod common;

use common::{after, fewer, stride, widened, Tally};
use honigzange::{raw, Refusal, Utc};
use second::leap;
use second::rng::{i64_edges, u64_edges, Rng};

/// The covered TAI seconds and UTC days.
const FIRST_SECOND: i64 = 441_763_210;
const LAST_SECOND: i64 = 2_145_916_836;
const FIRST_DAY: i64 = 5_113;
const LAST_DAY: i64 = 24_836;
const DAYS: u64 = 19_724;

const LEAPS: u64 = 27;

/// One input to both programs: the number and the result cells in C's terms, and the answer in Rust's.
fn compare_utc_of_second(rng: &mut Rng, tally: &mut Tally, sec: i64) {
    let expected = leap::utc_of_second(sec);
    tally.count(&expected);
    let before = (rng.i64(), rng.u64(), rng.i64());
    let mut cells = before;
    let number = raw::utc_of_second(sec, &mut cells.0, &mut cells.1, &mut cells.2);
    assert_eq!((number, cells), after(expected, before), "second {sec}");
    let answer = honigzange::utc_of_second(sec).map(|utc| (utc.day, utc.second, utc.offset));
    assert_eq!(answer.map_err(Refusal::number), expected, "second {sec}");
}

fn compare_second_of_utc(rng: &mut Rng, tally: &mut Tally, day: i64, second: u64) {
    let expected = leap::second_of_utc(day, second);
    tally.count(&expected);
    let before = rng.i64();
    let mut cell = before;
    let number = raw::second_of_utc(day, second, &mut cell);
    assert_eq!(
        (number, cell),
        after(expected, before),
        "day {day}, {second}"
    );
    let answer = honigzange::second_of_utc(day, second);
    assert_eq!(
        answer.map_err(Refusal::number),
        expected,
        "day {day}, {second}"
    );
}

/// The leap seconds, and the days that end with them.
fn leaps() -> Vec<(i64, i64)> {
    (FIRST_DAY..=LAST_DAY)
        .filter_map(|day| Some((leap::second_of_utc(day, 86_400).ok()?, day)))
        .collect()
}

#[test]
fn seconds_around_each_leap_and_the_ends() {
    let (mut rng, mut tally) = (Rng::new(21), Tally::default());
    let reach = 100_000;
    let leaps = leaps().into_iter().map(|(sec, _)| sec);
    for centre in leaps.chain([FIRST_SECOND, LAST_SECOND]) {
        for sec in centre - reach..=centre + reach {
            compare_utc_of_second(&mut rng, &mut tally, sec);
        }
    }
    let outside = 2 * reach as u64;
    tally.assert_exactly(&[(0, (LEAPS + 2) * (outside + 1) - outside), (5, outside)]);
}

#[test]
fn seconds_of_the_days_around_each_leap_and_the_ends() {
    let (mut rng, mut tally) = (Rng::new(22), Tally::default());
    let leaps = leaps().into_iter().map(|(_, day)| day);
    for centre in leaps.chain([FIRST_DAY - 1, LAST_DAY]) {
        for day in [centre, centre + 1] {
            for second in 0..=86_402 {
                compare_second_of_utc(&mut rng, &mut tally, day, second);
            }
        }
    }
    let days = 2 * LEAPS + 2;
    tally.assert_exactly(&[
        (0, days * 86_400 + LEAPS),
        (4, (days + 2) * 2),
        (5, 2 * 86_401),
        (6, days - LEAPS),
    ]);
}

#[test]
fn edge_seconds_of_every_day() {
    let (mut rng, mut tally) = (Rng::new(23), Tally::default());
    let outside = 1_000;
    for day in FIRST_DAY - outside..=LAST_DAY + outside {
        for second in [0, 86_399, 86_400, 86_401] {
            compare_second_of_utc(&mut rng, &mut tally, day, second);
        }
    }
    let outside = 2 * outside as u64;
    tally.assert_exactly(&[
        (0, 2 * DAYS + LEAPS),
        (4, DAYS + outside),
        (5, 3 * outside),
        (6, DAYS - LEAPS),
    ]);
}

/// The next day begins one second after a day's last one, leap second or not.
#[test]
fn covered_days_adjoin() {
    let mut next = FIRST_SECOND;
    for day in FIRST_DAY..=LAST_DAY {
        let first = honigzange::second_of_utc(day, 0).expect("a covered day has a first second");
        assert_eq!(first, next, "day {day}");
        let last = honigzange::second_of_utc(day, 86_400)
            .or_else(|_| honigzange::second_of_utc(day, 86_399))
            .expect("a covered day has a last second");
        for (sec, second) in [(first, 0), (last, (last - first) as u64)] {
            let utc = honigzange::utc_of_second(sec).expect("a second of the day is covered");
            assert_eq!((utc.day, utc.second), (day, second));
        }
        next = last + 1;
    }
    assert_eq!(next, LAST_SECOND + 1);
}

#[test]
fn strides_through_the_cover() {
    let (mut rng, mut tally, mut steps) = (Rng::new(24), Tally::default(), 0);
    let stride = stride(101);
    for sec in (FIRST_SECOND..=LAST_SECOND).step_by(stride) {
        compare_utc_of_second(&mut rng, &mut tally, sec);
        let Utc {
            day,
            second,
            offset,
        } = honigzange::utc_of_second(sec).expect("the second is covered");
        assert_eq!(day * 86_400 + second as i64 + offset, sec);
        assert_eq!(honigzange::second_of_utc(day, second), Ok(sec));
        steps += 1;
    }
    assert_eq!(
        steps,
        (LAST_SECOND - FIRST_SECOND) as u64 / stride as u64 + 1
    );
    tally.assert_exactly(&[(0, steps)]);
}

#[test]
fn seconds_of_all_edges() {
    let (mut rng, mut tally) = (Rng::new(25), Tally::default());
    let narrow = [-1 << 32, -1 << 31, 1 << 31, 1 << 32];
    for sec in i64_edges(&[&[FIRST_SECOND, LAST_SECOND], &narrow[..]].concat()) {
        compare_utc_of_second(&mut rng, &mut tally, sec);
    }
    tally.assert_each_over(&[(0, 5), (5, 20)]);
}

/// Each order of refusals: a bad second on a day outside, a second 86,400 there, and so on.
#[test]
fn readings_of_all_edges() {
    let (mut rng, mut tally) = (Rng::new(26), Tally::default());
    let ends = [FIRST_DAY, LAST_DAY, i64::MIN / 86_400, i64::MAX / 86_400];
    let leaps = leaps().into_iter().map(|(_, day)| day).collect::<Vec<_>>();
    for day in i64_edges(&[&ends[..], &leaps].concat()) {
        for second in u64_edges(&[60, 86_400, 1 << 16, 1 << 32, 1 << 63]) {
            compare_second_of_utc(&mut rng, &mut tally, day, second);
        }
    }
    tally.assert_each_over(&[(0, 1_000), (4, 1_000), (5, 300), (6, 100)]);
}

#[test]
fn seconds_of_all_kinds() {
    let (mut rng, mut tally) = (Rng::new(27), Tally::default());
    for _ in 0..fewer(1_000_000) {
        let good = rng.between(FIRST_SECOND, LAST_SECOND);
        let sec = match rng.below(4) {
            0 => rng.i64(),
            1 => widened(&mut rng, good as u64) as i64,
            2 => rng.between(-1 << 41, (1 << 41) - 1),
            _ => good,
        };
        compare_utc_of_second(&mut rng, &mut tally, sec);
    }
    tally.assert_each_over(&[(0, 200_000), (5, 500_000)]);
}

#[test]
fn readings_of_all_kinds() {
    let (mut rng, mut tally) = (Rng::new(28), Tally::default());
    for _ in 0..fewer(1_000_000) {
        let good = rng.between(FIRST_DAY, LAST_DAY);
        let day = match rng.below(8) {
            0 => rng.i64(),
            1 => widened(&mut rng, good as u64) as i64,
            _ => good,
        };
        let second = match rng.below(8) {
            0 => rng.u64(),
            1 => widened(&mut rng, 86_400),
            2 | 3 => 86_400,
            _ => rng.below(86_400),
        };
        compare_second_of_utc(&mut rng, &mut tally, day, second);
    }
    tally.assert_each_over(&[(0, 300_000), (4, 200_000), (5, 100_000), (6, 100_000)]);
}

/// Document 01's own: the ends of the cover, the leaps at 23:59:60, and the seconds around the last one.
#[test]
fn known_times() {
    let leaps = (0..30_000)
        .filter_map(|day| honigzange::second_of_utc(day, 86_400).ok())
        .collect::<Vec<_>>();
    assert_eq!(leaps.len(), 27);
    assert_eq!((leaps[0], leaps[26]), (457_488_010, 1_861_920_036));
    let known = [
        (441_763_210, (5_113, 0, 10)),
        (1_861_920_035, (21_549, 86_399, 36)),
        (1_861_920_036, (21_549, 86_400, 36)),
        (1_861_920_037, (21_550, 0, 37)),
        (2_145_916_836, (24_836, 86_399, 37)),
    ];
    for (sec, (day, second, offset)) in known {
        assert_eq!(
            honigzange::utc_of_second(sec),
            Ok(Utc {
                day,
                second,
                offset
            })
        );
    }
}
