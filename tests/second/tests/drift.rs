//! Rates and reports on runs, compared with the second program.

mod common;

use common::{after, fewer, floor, Tally};
use honigzange::{raw, Pair, Record, Refusal};
use second::rng::{i64_edges, u64_edges, Rng};
use second::{drift, scale};
use std::cmp::Ordering;

/// The ticks of 2^-24 s, the steps of a second, and the first second that an elapsed time may not have.
const GRID: u64 = Record::GRID;
const STEPS: i64 = 1 << 24;
const LIMIT: i64 = 1 << 32;

const ANSWERS: [u8; 4] = [0, 7, 10, 11];

fn plain(pair: Pair) -> drift::Pair {
    [pair.onboard, pair.ground].map(|record| (record.sec, record.ticks))
}

/// One input to both programs: the number and the result cells in C's terms, and the answer in Rust's.
fn compare_rate(rng: &mut Rng, tally: &mut Tally, first: Pair, second: Pair) {
    let expected = drift::rate(plain(first), plain(second));
    tally.count(&expected);
    let before = (rng.i64(), rng.u64());
    let mut cells = before;
    let number = raw::rate(
        first.onboard.sec,
        first.onboard.ticks,
        first.ground.sec,
        first.ground.ticks,
        second.onboard.sec,
        second.onboard.ticks,
        second.ground.sec,
        second.ground.ticks,
        &mut cells.0,
        &mut cells.1,
    );
    assert_eq!(
        (number, cells),
        after(expected, before),
        "{first:?} to {second:?}"
    );
    let answer = honigzange::rate(first, second).map(|rate| (rate.num(), rate.den()));
    assert_eq!(
        answer.map_err(Refusal::number),
        expected,
        "{first:?} to {second:?}"
    );
}

/// A run to both programs: the whole report in C's terms, whatever it held, and in Rust's.
fn compare_run(rng: &mut Rng, tally: &mut Tally, run: &[Pair]) {
    let plain_run = run.iter().copied().map(plain).collect::<Vec<_>>();
    let expected = drift::report(&plain_run);
    for two in plain_run.windows(2) {
        tally.count(&drift::rate(two[0], two[1]));
    }
    let any = |rng: &mut Rng| raw::Extreme {
        num: rng.i64(),
        den: rng.u64(),
        place: rng.u64(),
    };
    let mut told = raw::Report {
        rates: rng.u64(),
        range: rng.u64(),
        not_elapsed: rng.u64(),
        off_grid: rng.u64(),
        smallest: any(rng),
        largest: any(rng),
    };
    assert_eq!(raw::rates(run, &mut told), 0);
    let extreme = |told: Option<(drift::Fraction, usize)>| {
        let ((num, den), place) = told.unwrap_or(((0, 0), 0));
        let place = place as u64;
        raw::Extreme { num, den, place }
    };
    let whole = raw::Report {
        rates: expected.rates as u64,
        range: expected.range as u64,
        not_elapsed: expected.not_elapsed as u64,
        off_grid: expected.off_grid as u64,
        smallest: extreme(expected.smallest),
        largest: extreme(expected.largest),
    };
    assert_eq!(told, whole, "{run:?}");
    let report = honigzange::rates(run);
    let told = drift::Report {
        rates: report.rates,
        range: report.range,
        not_elapsed: report.not_elapsed,
        off_grid: report.off_grid,
        smallest: report
            .smallest
            .map(|e| ((e.rate.num(), e.rate.den()), e.place)),
        largest: report
            .largest
            .map(|e| ((e.rate.num(), e.rate.den()), e.place)),
    };
    assert_eq!(told, expected, "{run:?}");
}

/// A record so many steps of the grid from another, where there is one.
fn moved(from: Record, steps: i128) -> Option<Record> {
    let total = scale::total(from.sec, from.ticks) + steps * i128::from(GRID);
    let (sec, ticks) = scale::parts(total);
    Some(Record {
        sec: i64::try_from(sec).ok()?,
        ticks,
    })
}

fn at(sec: i64, ticks: u64) -> Record {
    Record { sec, ticks }
}

fn whole(sec: i64) -> Record {
    at(sec, 0)
}

fn pair(onboard: Record, ground: Record) -> Pair {
    Pair { onboard, ground }
}

/// A record on the grid.
fn on_grid(rng: &mut Rng) -> Record {
    let sec = rng.between(-1 << 41, (1 << 41) - 1);
    at(sec, rng.below(STEPS as u64) * GRID)
}

/// Elapsed steps at which a rule changes: around 0 and around 2^32 s, both ways.
fn edge_steps() -> Vec<i128> {
    let limit = i128::from(LIMIT) * i128::from(STEPS);
    let around = [-limit, -i128::from(STEPS), 0, i128::from(STEPS), limit];
    let all = around.iter().flat_map(|c| (-2..=2).map(move |by| c + by));
    all.collect()
}

/// Elapsed steps of any kind: few, many, equal to others, at an edge.
fn any_steps(rng: &mut Rng, edges: &[i128]) -> i128 {
    match rng.below(8) {
        0 => rng.pick(edges),
        1 | 2 => i128::from(rng.between(-3, 3)),
        3 | 4 => i128::from(rng.between(-1000, 1000)) * i128::from(STEPS),
        5 => i128::from(rng.between(-1 << 58, 1 << 58)),
        6 => i128::from(STEPS) + i128::from(rng.between(-20, 20)),
        _ => i128::from(rng.between(-1 << 56, 1 << 56)),
    }
}

/// A pair after another: most often on the grid and on the way on, at times back, off the grid, invalid or
/// anywhere at all.
fn next(rng: &mut Rng, edges: &[i128], from: Pair) -> Pair {
    let onboard = any_steps(rng, edges);
    let ground = match rng.below(4) {
        0 => any_steps(rng, edges),
        _ => any_steps(rng, edges).abs(),
    };
    let mut to = pair(
        moved(from.onboard, onboard).unwrap_or(from.onboard),
        moved(from.ground, ground).unwrap_or(from.ground),
    );
    let hit = match rng.below(2) {
        0 => &mut to.onboard,
        _ => &mut to.ground,
    };
    match rng.below(32) {
        0 => hit.ticks += rng.pick(&[1, GRID - 1, GRID / 2]),
        1 => hit.ticks = Record::TICKS,
        2 => hit.sec = rng.pick(&[i64::MIN, -1 << 42, 1 << 41, i64::MAX]),
        3 => hit.ticks = rng.u64(),
        4 => to = pair(on_grid(rng), on_grid(rng)),
        _ => {}
    }
    to
}

/// A run of so many pairs of all kinds.
fn any_run(rng: &mut Rng, edges: &[i128], len: usize) -> Vec<Pair> {
    let mut now = pair(on_grid(rng), on_grid(rng));
    let mut run = Vec::with_capacity(len);
    for _ in 0..len {
        run.push(now);
        let to = next(rng, edges, now);
        // From a pair that is refused nothing goes on: a good one follows it more often than not.
        let good = |record: Record| {
            scale::record(record.sec, record.ticks).is_ok() && record.ticks % GRID == 0
        };
        now = match good(to.onboard) && good(to.ground) || rng.once_in(4) {
            true => to,
            false => pair(whole(rng.between(-9, 9)), whole(rng.between(-9, 9))),
        };
    }
    run
}

#[test]
fn both_programs_have_the_same_grid() {
    assert_eq!(GRID * STEPS as u64, scale::TICKS);
}

#[test]
fn known_rates() {
    let zero = pair(whole(0), whole(0));
    let step = |sec| at(sec, GRID);
    let longest = at(LIMIT - 1, (STEPS as u64 - 1) * GRID);
    let most = i64::MAX >> 7;
    let known = [
        // one invalid and another off the grid; off the grid and too long; too long and nothing elapsed
        (at(0, Record::TICKS), at(1, 1), Err(7)),
        (at(LIMIT, 1), whole(0), Err(11)),
        (whole(LIMIT), whole(0), Err(7)),
        (whole(1), whole(0), Err(10)),
        // the size is the exact absolute value
        (step(-LIMIT), whole(1), Ok((-most, STEPS as u64))),
        (whole(-LIMIT), whole(1), Err(7)),
        (whole(1), whole(-LIMIT), Err(7)),
        (whole(1), step(-LIMIT), Err(10)),
        (longest, step(0), Ok((most, 1))),
        (step(0), longest, Ok((1, most as u64))),
        (whole(0), longest, Ok((0, 1))),
        (whole(-6), whole(4), Ok((-3, 2))),
    ];
    for (onboard, ground, expected) in known {
        let rate = honigzange::rate(zero, pair(onboard, ground));
        let rate = rate.map(|rate| (rate.num(), rate.den()));
        assert_eq!(
            rate.map_err(Refusal::number),
            expected,
            "{onboard:?} {ground:?}"
        );
        assert_eq!(
            drift::rate(plain(zero), plain(pair(onboard, ground))),
            expected
        );
    }
}

#[test]
fn known_runs() {
    let seconds = [(0, 0), (1, 2), (1, 2), (2, 4), (5, 4), (4, 6)];
    let run = seconds.map(|(onboard, ground)| pair(whole(onboard), whole(ground)));
    let report = honigzange::rates(&run);
    let counts = (
        report.rates,
        report.range,
        report.not_elapsed,
        report.off_grid,
    );
    assert_eq!(counts, (3, 0, 2, 0));
    let told = [report.smallest, report.largest]
        .map(|extreme| extreme.map(|at| format!("{} at {}", at.rate, at.place)));
    assert_eq!(told, [Some("-1/2 at 4".into()), Some("1/2 at 0".into())]);
    let (mut rng, mut tally) = (Rng::new(1), Tally::default());
    for len in 0..=run.len() {
        compare_run(&mut rng, &mut tally, &run[..len]);
    }
}

/// Every elapsed time at an edge, onboard and on the ground, from records at both ends of their range and between.
#[test]
fn rates_of_all_edges() {
    let (mut rng, mut tally) = (Rng::new(2), Tally::default());
    let last = at((1 << 41) - 1, (STEPS as u64 - 1) * GRID);
    let starts = [whole(-1 << 41), whole(0), at(-1, GRID), last];
    for onboard in starts {
        for ground in starts {
            for &a in &edge_steps() {
                for &b in &edge_steps() {
                    let to = (moved(onboard, a), moved(ground, b));
                    let (Some(a), Some(b)) = to else { continue };
                    compare_rate(&mut rng, &mut tally, pair(onboard, ground), pair(a, b));
                }
            }
        }
    }
    tally.assert_each_over(&[(0, 500), (7, 2_000), (10, 500)]);
}

/// All four records at the edges of seconds and ticks, one after another; the others are good.
#[test]
fn records_of_all_edges() {
    let (mut rng, mut tally) = (Rng::new(3), Tally::default());
    let good = [pair(whole(5), whole(6)), pair(whole(8), whole(10))];
    let ticks = u64_edges(&[GRID, Record::TICKS - GRID, Record::TICKS, 1 << 63]);
    for sec in i64_edges(&[-1 << 41, 1 << 41, LIMIT, -LIMIT]) {
        for &ticks in &ticks {
            let edge = at(sec, ticks);
            for place in 0..4 {
                let mut pairs = good;
                match place {
                    0 => pairs[0].onboard = edge,
                    1 => pairs[0].ground = edge,
                    2 => pairs[1].onboard = edge,
                    _ => pairs[1].ground = edge,
                }
                compare_rate(&mut rng, &mut tally, pairs[0], pairs[1]);
                compare_run(&mut rng, &mut tally, &pairs);
                let other = match place {
                    0 => &mut pairs[1].ground,
                    _ => &mut pairs[0].onboard,
                };
                // off the grid, or invalid
                other.ticks ^= rng.pick(&[1, 1 << 63]);
                compare_rate(&mut rng, &mut tally, pairs[0], pairs[1]);
            }
        }
    }
    tally.assert_each_over(&[(0, 100), (7, 5_000), (10, 50), (11, 500)]);
}

#[test]
fn rates_of_all_kinds() {
    let (mut rng, mut tally, edges) = (Rng::new(4), Tally::default(), edge_steps());
    for _ in 0..fewer(1_000_000) {
        let first = pair(on_grid(&mut rng), on_grid(&mut rng));
        let second = next(&mut rng, &edges, first);
        compare_rate(&mut rng, &mut tally, first, second);
    }
    tally.assert_each_over(&[(0, 400_000), (7, 100_000), (10, 50_000), (11, 10_000)]);
}

#[test]
fn any_bits_at_all() {
    let (mut rng, mut tally) = (Rng::new(5), Tally::default());
    // half of them on the grid, where four at once would come too seldom
    let any = |rng: &mut Rng| Record {
        sec: rng.i64() >> rng.below(64),
        ticks: match rng.below(2) {
            0 => rng.below(STEPS as u64) * GRID,
            _ => rng.u64() >> rng.below(64),
        },
    };
    let any = |rng: &mut Rng| pair(any(rng), any(rng));
    for _ in 0..fewer(500_000) {
        let run = [any(&mut rng), any(&mut rng), any(&mut rng)];
        compare_rate(&mut rng, &mut tally, run[0], run[1]);
        compare_run(&mut rng, &mut tally, &run);
    }
    tally.assert_each_over(&[(0, 2_000), (7, 500_000), (10, 2_000), (11, 100_000)]);
}

/// A million pairs, in runs of a few and of many.
#[test]
fn runs_of_all_kinds() {
    let (mut rng, mut tally, edges) = (Rng::new(6), Tally::default(), edge_steps());
    let (mut left, mut runs) = (fewer(1_000_000) as usize, 0);
    while left > 0 {
        let most = rng.pick(&[4, 16, 64, 1024]);
        let len = rng.below(most) as usize;
        let run = any_run(&mut rng, &edges, len);
        compare_run(&mut rng, &mut tally, &run);
        left = left.saturating_sub(len);
        runs += 1;
    }
    assert!(runs > floor(1_000), "too few runs: {runs}");
    tally.assert_each_over(&ANSWERS.map(|answer| (answer, 10_000)));
}

/// One run of a million pairs: a clock that drifts by parts in a million, jumps, and at times stands still.
#[test]
fn one_long_run() {
    let (mut rng, mut tally) = (Rng::new(7), Tally::default());
    let mut now = pair(whole(1_000_000), whole(1_000_000));
    let mut run = vec![now];
    for _ in 0..fewer(1_000_000) {
        let ground = match rng.below(64) {
            0 => 0,
            1 => -i128::from(STEPS),
            _ => i128::from(STEPS) * i128::from(rng.between(1, 3)),
        };
        let onboard = ground + i128::from(rng.between(-40, 40));
        now = pair(
            moved(now.onboard, onboard).expect("the run stays in range"),
            moved(now.ground, ground).expect("the run stays in range"),
        );
        run.push(now);
        if rng.once_in(1000) {
            let mut off = now;
            off.ground.ticks += 1;
            let mut invalid = now;
            invalid.onboard.sec = 1 << 41;
            run.extend([off, invalid, now]);
        }
    }
    compare_run(&mut rng, &mut tally, &run);
    tally.assert_each_over(&ANSWERS.map(|answer| (answer, 500)));
}

/// Rates that agree in their first whole parts, turned over again and again: neighbours of one fraction, and
/// ratios of numbers that each are the sum of the two before. Every order of them is tried.
#[test]
fn rates_that_are_close() {
    let (mut rng, mut tally) = (Rng::new(8), Tally::default());
    let mut sums = vec![1i128, 2];
    while sums.len() < 79 {
        sums.push(sums[sums.len() - 1] + sums[sums.len() - 2]);
    }
    let ratios = sums.windows(2).map(|two| (two[0], two[1]));
    let mut fractions = ratios.collect::<Vec<_>>();
    for _ in 0..30 {
        let (a, b) = (
            i128::from(rng.between(1, (1 << 55) - 1)),
            i128::from(rng.between(1, (1 << 55) - 1)),
        );
        fractions.extend([
            (a, b),
            (2 * a, 2 * b),
            (a + 1, b),
            (a, b + 1),
            (a + 1, b + 1),
        ]);
    }
    let turned = fractions.iter().map(|&(a, b)| (-a, b));
    let fractions = fractions.iter().copied().chain(turned).collect::<Vec<_>>();
    for &(a, b) in &fractions {
        for &(c, d) in &fractions {
            let run = [(0, 0), (a, b), (a + c, b + d)].map(|(onboard, ground)| {
                pair(
                    moved(whole(0), onboard).expect("in range"),
                    moved(whole(0), ground).expect("in range"),
                )
            });
            compare_run(&mut rng, &mut tally, &run);
        }
    }
    tally.assert_each_over(&[(0, 400_000)]);
}

/// Each extreme is the rate at its place; no rate of the run is beyond it, and none before it is equal to it.
#[test]
fn extremes_place_by_place() {
    let (mut rng, edges) = (Rng::new(9), edge_steps());
    let mut seen = 0;
    for _ in 0..fewer(4_000) {
        let run = any_run(&mut rng, &edges, 32);
        let report = honigzange::rates(&run);
        let rates = run.windows(2).map(|two| honigzange::rate(two[0], two[1]));
        let rates = rates.collect::<Vec<_>>();
        let beyond = [
            (report.smallest, Ordering::Less),
            (report.largest, Ordering::Greater),
        ];
        for (extreme, beyond) in beyond {
            let Some(extreme) = extreme else {
                assert!(rates.iter().all(Result::is_err), "{run:?}");
                continue;
            };
            assert_eq!(rates[extreme.place], Ok(extreme.rate), "{run:?}");
            for (place, rate) in rates.iter().enumerate() {
                let order = rate.map_or(Ordering::Equal, |rate| rate.cmp(&extreme.rate));
                let first = place >= extreme.place || rate.is_err() || order == beyond.reverse();
                assert!(order != beyond && first, "{place} of {run:?}");
            }
            seen += 1;
        }
        let refused = report.range + report.not_elapsed + report.off_grid;
        assert_eq!(report.rates + refused, run.len() - 1);
    }
    assert!(seen > floor(6_000), "too few extremes: {seen}");
}
