//! Rates between pairs of an onboard and a ground record, and the report on a run of them: elapsed times as whole
//! steps of the grid in 128 bits, compared by plain cross products, and lowered by halving and subtracting.

use crate::scale;

const OUT_OF_RANGE: u8 = 7;
const NOT_ELAPSED: u8 = 10;
const OFF_GRID: u8 = 11;

/// The ticks of 2^-24 s.
const GRID: i128 = (scale::TICKS >> 24) as i128;

/// Seconds and ticks, onboard and then on the ground.
pub type Pair = [(i64, u64); 2];

/// A numerator and a denominator.
pub type Fraction = (i64, u64);

/// How many twos have a rate, and how many are refused 7, 10 and 11; the smallest and the largest rate, each in
/// lowest terms and with its place.
#[derive(Clone, Copy, Debug, PartialEq, Eq)]
pub struct Report {
    pub rates: usize,
    pub range: usize,
    pub not_elapsed: usize,
    pub off_grid: usize,
    pub smallest: Option<(Fraction, usize)>,
    pub largest: Option<(Fraction, usize)>,
}

/// The rate from one pair to another.
pub fn rate(first: Pair, second: Pair) -> Result<Fraction, u8> {
    steps(first, second).map(lowest)
}

/// The report on a run.
pub fn report(run: &[Pair]) -> Report {
    let twos = run.windows(2).map(|two| steps(two[0], two[1]));
    let twos = twos.collect::<Vec<_>>();
    let refused = |number| twos.iter().filter(|two| **two == Err(number)).count();
    let rates = twos.iter().enumerate();
    let rates = rates.filter_map(|(place, two)| Some((two.ok()?, place)));
    let rates = rates.collect::<Vec<_>>();
    // Of equal ones `min_by` takes the first and `max_by` the last.
    let smallest = rates.iter().min_by(|a, b| cross(a.0, b.0));
    let largest = rates.iter().rev().max_by(|a, b| cross(a.0, b.0));
    let told = |&(steps, place): &(Steps, usize)| (lowest(steps), place);
    Report {
        rates: rates.len(),
        range: refused(OUT_OF_RANGE),
        not_elapsed: refused(NOT_ELAPSED),
        off_grid: refused(OFF_GRID),
        smallest: smallest.map(told),
        largest: largest.map(told),
    }
}

/// Steps of the grid that have elapsed, onboard and on the ground.
type Steps = (i128, i128);

fn steps(first: Pair, second: Pair) -> Result<Steps, u8> {
    let records = [first, second].concat().into_iter();
    let totals = records.map(|(sec, ticks)| scale::record(sec, ticks));
    let totals = totals.collect::<Result<Vec<_>, _>>()?;
    if totals.iter().any(|total| total % GRID != 0) {
        return Err(OFF_GRID);
    }
    let (onboard, ground) = (totals[2] - totals[0], totals[3] - totals[1]);
    let limit = scale::total(1 << 32, 0);
    if onboard.abs() >= limit || ground.abs() >= limit {
        return Err(OUT_OF_RANGE);
    }
    if ground <= 0 {
        return Err(NOT_ELAPSED);
    }
    Ok((onboard / GRID, ground / GRID))
}

/// The order of two quotients with positive divisors.
fn cross(a: Steps, b: Steps) -> std::cmp::Ordering {
    (a.0 * b.1).cmp(&(b.0 * a.1))
}

fn lowest((onboard, ground): Steps) -> Fraction {
    let divisor = common_divisor(onboard.unsigned_abs(), ground.unsigned_abs()) as i128;
    ((onboard / divisor) as i64, (ground / divisor) as u64)
}

/// The greatest number that divides both, of which the second is not 0: common twos are set aside, and then the
/// smaller is taken from the greater until one is 0.
fn common_divisor(mut a: u128, mut b: u128) -> u128 {
    let twos = (a | b).trailing_zeros();
    b >>= b.trailing_zeros();
    while a != 0 {
        a >>= a.trailing_zeros();
        (a, b) = (a.max(b) - a.min(b), a.min(b));
    }
    b << twos
}
