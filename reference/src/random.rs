//! A small generator of numbers: the same seed gives the same numbers everywhere.

/// The seed of the comparison runs.
pub const SEED: u64 = 4_096_013;

pub struct Random {
    state: u64,
}

impl Random {
    pub fn new(seed: u64) -> Random {
        Random { state: seed }
    }

    /// A generator whose seed is printed, with what it is for.
    pub fn announced(seed: u64, purpose: &str) -> Random {
        println!("seed {seed}: {purpose}");
        Random::new(seed)
    }

    /// The next 64 bits.
    pub fn bits(&mut self) -> u64 {
        self.state = self.state.wrapping_add(0x9E37_79B9_7F4A_7C15);
        let mut z = self.state;
        z = (z ^ (z >> 30)).wrapping_mul(0xBF58_476D_1CE4_E5B9);
        z = (z ^ (z >> 27)).wrapping_mul(0x94D0_49BB_1331_11EB);
        z ^ (z >> 31)
    }

    /// A number below `end`, which is not 0.
    pub fn below(&mut self, end: u64) -> u64 {
        self.bits() % end
    }

    /// A number from `low` to `high`, both included.
    pub fn between(&mut self, low: u32, high: u32) -> u32 {
        low + self.below(u64::from(high - low) + 1) as u32
    }

    /// A number from `low` to `high`, each power of two about as often as the others.
    pub fn between_by_size(&mut self, low: u32, high: u32) -> u32 {
        let size = self.between(0, 31);
        let top = low.saturating_add((1 << size) - 1).min(high);
        self.between(low, top)
    }

    /// True once in `many` times.
    pub fn once_in(&mut self, many: u64) -> bool {
        self.below(many) == 0
    }

    /// One of the choices.
    pub fn choose<T: Copy>(&mut self, choices: &[T]) -> T {
        choices[self.below(choices.len() as u64) as usize]
    }

    /// The entries in another order.
    pub fn shuffle<T>(&mut self, entries: &mut [T]) {
        for i in (1..entries.len()).rev() {
            entries.swap(i, self.below(i as u64 + 1) as usize);
        }
    }
}
