//! Inputs that every run repeats: splitmix64, and lists of values at which a rule may change.

/// A splitmix64 generator.
pub struct Rng(u64);

impl Rng {
    pub fn new(seed: u64) -> Rng {
        Rng(seed)
    }

    /// Any number of 64 bits.
    pub fn u64(&mut self) -> u64 {
        self.0 = self.0.wrapping_add(0x9E37_79B9_7F4A_7C15);
        let mut z = self.0;
        z = (z ^ (z >> 30)).wrapping_mul(0xBF58_476D_1CE4_E5B9);
        z = (z ^ (z >> 27)).wrapping_mul(0x94D0_49BB_1331_11EB);
        z ^ (z >> 31)
    }

    /// Any signed number of 64 bits.
    pub fn i64(&mut self) -> i64 {
        self.u64() as i64
    }

    /// A number from 0 to `end` - 1.
    pub fn below(&mut self, end: u64) -> u64 {
        self.u64() % end
    }

    /// A number from `first` to `last`, which are fewer than 2^64 apart.
    pub fn between(&mut self, first: i64, last: i64) -> i64 {
        let count = i128::from(last) - i128::from(first) + 1;
        let steps = i128::from(self.u64()) % count;
        (i128::from(first) + steps) as i64
    }

    /// True once in `n` times.
    pub fn once_in(&mut self, n: u64) -> bool {
        self.below(n) == 0
    }

    /// One of the values.
    pub fn pick<T: Copy>(&mut self, values: &[T]) -> T {
        values[self.below(values.len() as u64) as usize]
    }
}

/// The ends of i64 and the neighbours of 0 and of each centre, two to each side.
pub fn i64_edges(centres: &[i64]) -> Vec<i64> {
    let all = [&[i64::MIN, 0, i64::MAX], centres].concat();
    sorted(
        all.iter()
            .flat_map(|&c| (-2..=2).map(move |by| c.saturating_add(by)))
            .collect(),
    )
}

/// The ends of u64 and the neighbours of each centre, two to each side.
pub fn u64_edges(centres: &[u64]) -> Vec<u64> {
    let all = [&[0, u64::MAX], centres].concat();
    sorted(
        all.iter()
            .flat_map(|&c| (-2..=2).map(move |by| c.saturating_add_signed(by)))
            .collect(),
    )
}

fn sorted<T: Ord>(mut values: Vec<T>) -> Vec<T> {
    values.sort_unstable();
    values.dedup();
    values
}
