//! What every comparison needs: the tally of its cases, and inputs of many kinds.
//! Each comparison uses its part of this.
#![allow(dead_code)]

pub mod codes;
pub mod lists;
pub mod tags;
pub mod texts;

use honigzange::{Record, Span};
use second::rng::{i64_edges, u64_edges, Rng};
use std::env;
use std::sync::OnceLock;

/// By how much fewer random cases are run. Emulated, each takes ten to twenty times as long: there the gate
/// sets HZ_FEWER. Cases at edges and those that are run through from end to end stay.
pub fn factor() -> u64 {
    static FACTOR: OnceLock<u64> = OnceLock::new();
    *FACTOR.get_or_init(|| match env::var("HZ_FEWER") {
        Ok(text) => text
            .parse()
            .ok()
            .filter(|&factor| factor > 0)
            .unwrap_or_else(|| panic!("HZ_FEWER is a number from 1 on: {text:?}")),
        Err(_) => 1,
    })
}

/// How many random cases are run where it would be so many.
pub fn fewer(count: u64) -> u64 {
    count.div_ceil(factor())
}

/// How far apart cases are that stand for those between them, where it would be so far. An odd number stays odd.
pub fn stride(apart: usize) -> usize {
    apart * (2 * (factor() as usize / 2) + 1)
}

/// What random cases must hit of a kind where it would be so often. A few cases scatter more than many.
pub fn floor(count: u64) -> u64 {
    count / (2 * factor() - 1)
}

/// How often the second program gave each answer: done at 0, and each refusal at its number.
#[derive(Default, Debug)]
pub struct Tally(Vec<u64>);

impl Tally {
    pub fn count<T>(&mut self, answer: &Result<T, u8>) {
        let number = usize::from(answer.as_ref().err().copied().unwrap_or(0));
        if self.0.len() <= number {
            self.0.resize(number + 1, 0);
        }
        self.0[number] += 1;
    }

    /// A comparison that hits one kind of answer alone shows little.
    pub fn assert_over(&self, done: u64, refused: u64) {
        let all_refused = self.0.iter().skip(1).sum::<u64>();
        let all_done = self.0.first().copied().unwrap_or(0);
        assert!(
            all_done > floor(done) && all_refused > floor(refused),
            "too few of a kind: {self:?}"
        );
    }

    /// Each answer of these was given more often than said, and no other was given.
    pub fn assert_each_over(&self, floors: &[(u8, u64)]) {
        let given = self.given();
        let over = given.len() == floors.len()
            && given
                .iter()
                .zip(floors)
                .all(|(given, least)| given.0 == least.0 && given.1 > floor(least.1));
        assert!(over, "too few of a kind, or another kind: {given:?}");
    }

    /// Each answer of these was given just as often as said, and no other was given.
    pub fn assert_exactly(&self, counts: &[(u8, u64)]) {
        assert_eq!(self.given(), counts);
    }

    fn given(&self) -> Vec<(u8, u64)> {
        let counts = (0..).zip(self.0.iter().copied());
        counts.filter(|&(_, count)| count > 0).collect()
    }
}

/// The number that a call must answer and what its result cells must hold after it, when they held
/// `before`: a refusal leaves them as they were.
pub fn after<T>(expected: Result<T, u8>, before: T) -> (u8, T) {
    match expected {
        Ok(written) => (0, written),
        Err(number) => (number, before),
    }
}

/// Values of seconds and ticks: edges, valid ones, and any at all.
pub struct Scale {
    pub secs: Vec<i64>,
    pub ticks: Vec<u64>,
}

impl Scale {
    pub fn new() -> Scale {
        Scale {
            secs: i64_edges(&[-1 << 42, -1 << 41, 1 << 41, 1 << 42]),
            ticks: u64_edges(&[Record::TICKS / 2, Record::TICKS]),
        }
    }

    /// Every pair of an edge second and edge ticks.
    pub fn edges(&self) -> Vec<(i64, u64)> {
        self.secs
            .iter()
            .flat_map(|&sec| self.ticks.iter().map(move |&ticks| (sec, ticks)))
            .collect()
    }

    /// A record of any kind, valid more often than not.
    pub fn any_record(&self, rng: &mut Rng) -> Record {
        Record {
            sec: self.sec(rng, 41),
            ticks: self.ticks(rng),
        }
    }

    /// A span of any kind, valid more often than not.
    pub fn any_span(&self, rng: &mut Rng) -> Span {
        Span {
            sec: self.sec(rng, 42),
            ticks: self.ticks(rng),
        }
    }

    fn sec(&self, rng: &mut Rng, bits: u32) -> i64 {
        match rng.below(16) {
            0 => rng.i64(),
            1 | 2 => rng.pick(&self.secs),
            3..=5 => rng.between(-1000, 1000),
            _ => rng.between(-1 << bits, (1 << bits) - 1),
        }
    }

    fn ticks(&self, rng: &mut Rng) -> u64 {
        match rng.below(16) {
            0 => rng.u64(),
            1..=4 => rng.pick(&self.ticks),
            _ => rng.below(Record::TICKS),
        }
    }
}

/// A valid record.
pub fn record(rng: &mut Rng) -> Record {
    Record {
        sec: rng.between(-1 << 41, (1 << 41) - 1),
        ticks: rng.below(Record::TICKS),
    }
}

/// A valid span.
pub fn span(rng: &mut Rng) -> Span {
    Span {
        sec: rng.between(-1 << 42, (1 << 42) - 1),
        ticks: rng.below(Record::TICKS),
    }
}

/// A number whose low bits are those of another: a narrower type would take them for the same.
pub fn widened(rng: &mut Rng, low: u64) -> u64 {
    let bits = rng.pick(&[8, 16, 31, 32, 63]);
    (low & ((1 << bits) - 1)) | (rng.u64() << bits)
}
