//! Difference and shift, compared with the second program.

mod common;

use common::{after, fewer, floor, Scale, Tally};
use honigzange::{raw, Record, Refusal, Span};
use second::rng::Rng;
use second::scale;

/// One input to both programs: the number and the result cells in C's terms, and the answer in Rust's.
fn compare_difference(rng: &mut Rng, tally: &mut Tally, a: Record, b: Record) {
    let expected = scale::difference(a.sec, a.ticks, b.sec, b.ticks);
    tally.count(&expected);
    let before = (rng.i64(), rng.u64());
    let mut cells = before;
    let number = raw::difference(a.sec, a.ticks, b.sec, b.ticks, &mut cells.0, &mut cells.1);
    assert_eq!((number, cells), after(expected, before), "{a:?} - {b:?}");
    let answer = honigzange::difference(a, b).map(|span| (span.sec, span.ticks));
    assert_eq!(answer.map_err(Refusal::number), expected, "{a:?} - {b:?}");
}

fn compare_shift(rng: &mut Rng, tally: &mut Tally, r: Record, by: Span) {
    let expected = scale::shift(r.sec, r.ticks, by.sec, by.ticks);
    tally.count(&expected);
    let before = (rng.i64(), rng.u64());
    let mut cells = before;
    let number = raw::shift(r.sec, r.ticks, by.sec, by.ticks, &mut cells.0, &mut cells.1);
    assert_eq!((number, cells), after(expected, before), "{r:?} by {by:?}");
    let answer = honigzange::shift(r, by).map(|to| (to.sec, to.ticks));
    assert_eq!(answer.map_err(Refusal::number), expected, "{r:?} by {by:?}");
}

#[test]
fn both_programs_have_the_same_ticks() {
    assert_eq!(Record::TICKS, scale::TICKS);
}

#[test]
fn differences_of_all_edges() {
    let (mut rng, mut tally) = (Rng::new(1), Tally::default());
    let edges = Scale::new().edges();
    for &(sec, ticks) in &edges {
        let a = Record { sec, ticks };
        for &(sec, ticks) in &edges {
            compare_difference(&mut rng, &mut tally, a, Record { sec, ticks });
        }
    }
    tally.assert_over(5_000, 100_000);
}

#[test]
fn shifts_by_all_edges() {
    let (mut rng, mut tally) = (Rng::new(2), Tally::default());
    let edges = Scale::new().edges();
    for &(sec, ticks) in &edges {
        let r = Record { sec, ticks };
        for &(sec, ticks) in &edges {
            compare_shift(&mut rng, &mut tally, r, Span { sec, ticks });
        }
    }
    tally.assert_over(5_000, 100_000);
}

#[test]
fn differences_of_all_kinds() {
    let (mut rng, mut tally, kinds) = (Rng::new(3), Tally::default(), Scale::new());
    for _ in 0..fewer(2_000_000) {
        let (a, b) = (kinds.any_record(&mut rng), kinds.any_record(&mut rng));
        compare_difference(&mut rng, &mut tally, a, b);
    }
    tally.assert_over(500_000, 500_000);
}

#[test]
fn shifts_of_all_kinds() {
    let (mut rng, mut tally, kinds) = (Rng::new(4), Tally::default(), Scale::new());
    for _ in 0..fewer(2_000_000) {
        let (r, by) = (kinds.any_record(&mut rng), kinds.any_span(&mut rng));
        compare_shift(&mut rng, &mut tally, r, by);
    }
    tally.assert_over(500_000, 500_000);
}

#[test]
fn any_bits_at_all() {
    let (mut rng, mut tally) = (Rng::new(5), Tally::default());
    for _ in 0..fewer(500_000) {
        let a = Record {
            sec: rng.i64(),
            ticks: rng.u64(),
        };
        let (sec, ticks) = (rng.i64(), rng.u64());
        compare_difference(&mut rng, &mut tally, a, Record { sec, ticks });
        compare_shift(&mut rng, &mut tally, a, Span { sec, ticks });
    }
}

/// Shifts from anywhere to a tick or a second around the first and the last record.
#[test]
fn shifts_to_the_ends_of_the_range() {
    let (mut rng, mut tally) = (Rng::new(6), Tally::default());
    let ends = [scale::total(-1 << 41, 0), scale::total(1 << 41, 0)];
    for _ in 0..fewer(500_000) {
        let r = common::record(&mut rng);
        let unit = rng.pick(&[1, i128::from(scale::TICKS)]);
        let target = rng.pick(&ends) + unit * i128::from(rng.between(-2, 2));
        let (sec, ticks) = scale::parts(target - scale::total(r.sec, r.ticks));
        compare_shift(
            &mut rng,
            &mut tally,
            r,
            Span {
                sec: sec as i64,
                ticks,
            },
        );
    }
    tally.assert_over(100_000, 100_000);
}

#[test]
fn shifting_b_by_a_less_b_gives_a() {
    let mut rng = Rng::new(7);
    for _ in 0..fewer(1_000_000) {
        let (a, b) = (common::record(&mut rng), common::record(&mut rng));
        let apart = honigzange::difference(a, b).expect("valid records have a difference");
        assert_eq!(honigzange::shift(b, apart), Ok(a), "{a:?} - {b:?}");
    }
}

#[test]
fn a_shifted_record_less_the_first_is_the_span() {
    let (mut rng, mut done) = (Rng::new(8), 0);
    for _ in 0..fewer(1_000_000) {
        let (r, by) = (common::record(&mut rng), common::span(&mut rng));
        if let Ok(to) = honigzange::shift(r, by) {
            assert_eq!(honigzange::difference(to, r), Ok(by), "{r:?} by {by:?}");
            done += 1;
        }
    }
    assert!(
        done > floor(100_000),
        "too few shifts stay in range: {done}"
    );
}
