//! Numbers drawn by chance, the same ones for the same seed on every machine.
use std::cell::Cell;

/// SplitMix64.
pub struct Random {
    state: Cell<u64>,
}

impl Random {
    /// The numbers of one case, which depend on no other case's.
    pub fn of(seed: u64, index: u64) -> Random {
        let random = Random {
            state: Cell::new(seed),
        };
        random.state.set(random.next() ^ index);
        random
    }

    fn next(&self) -> u64 {
        let mut z = self.state.get().wrapping_add(0x9E37_79B9_7F4A_7C15);
        self.state.set(z);
        z = (z ^ (z >> 30)).wrapping_mul(0xBF58_476D_1CE4_E5B9);
        z = (z ^ (z >> 27)).wrapping_mul(0x94D0_49BB_1331_11EB);
        z ^ (z >> 31)
    }

    pub fn word(&self) -> u32 {
        (self.next() >> 32) as u32
    }

    /// A whole number below `end`.
    pub fn below(&self, end: usize) -> usize {
        ((u64::from(self.word()) * end as u64) >> 32) as usize
    }

    /// A whole number from `low` to `high`.
    pub fn from_to(&self, low: i32, high: i32) -> i32 {
        low + self.below((high - low + 1) as usize) as i32
    }

    /// True once in `n` times.
    pub fn one_in(&self, n: usize) -> bool {
        self.below(n) == 0
    }

    pub fn pick<T: Copy>(&self, from: &[T]) -> T {
        from[self.below(from.len())]
    }

    /// A number from `low` to `high`.
    pub fn between(&self, low: f32, high: f32) -> f32 {
        let part = (self.word() >> 8) as f32 / (1 << 24) as f32;
        low + (high - low) * part
    }

    /// A direction of length 1, as nearly as three numbers can say it.
    pub fn direction(&self) -> [f32; 3] {
        loop {
            let v = [0; 3].map(|_: i32| f64::from(self.between(-1.0, 1.0)));
            let square: f64 = v.iter().map(|x| x * x).sum();
            if (0.01..=1.0).contains(&square) {
                return v.map(|x| (x / square.sqrt()) as f32);
            }
        }
    }
}
