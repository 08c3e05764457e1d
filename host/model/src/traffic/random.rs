//! Random numbers of our own, the same on every machine for the same seed.

/// The splitmix64 sequence: a counter with a fixed stride, well stirred.
#[derive(Clone, Debug)]
pub struct Random {
    state: u64,
}

impl Random {
    pub fn new(seed: u64) -> Random {
        Random { state: seed }
    }

    pub fn number(&mut self) -> u64 {
        self.state = self.state.wrapping_add(0x9E37_79B9_7F4A_7C15);
        let mut z = self.state;
        z = (z ^ (z >> 30)).wrapping_mul(0xBF58_476D_1CE4_E5B9);
        z = (z ^ (z >> 27)).wrapping_mul(0x94D0_49BB_1331_11EB);
        z ^ (z >> 31)
    }

    /// 0 to `count` - 1.
    pub fn below(&mut self, count: usize) -> usize {
        (self.number() % count as u64) as usize
    }

    /// `low` to `high`, both reached.
    pub fn between(&mut self, low: usize, high: usize) -> usize {
        low + self.below(high - low + 1)
    }

    /// True once in so many times.
    pub fn once_in(&mut self, times: usize) -> bool {
        self.below(times) == 0
    }

    pub fn byte(&mut self) -> u8 {
        self.number() as u8
    }

    pub fn pick<T: Copy>(&mut self, from: &[T]) -> T {
        from[self.below(from.len())]
    }
}

#[cfg(test)]
mod tests {
    use super::*;

    #[test]
    fn the_known_start_of_the_sequence() {
        // The first numbers of splitmix64 for seed 0, as published with it.
        let mut random = Random::new(0);
        assert_eq!(random.number(), 0xE220_A839_7B1D_CDAF);
        assert_eq!(random.number(), 0x6E78_9E6A_A1B9_65F4);
        assert_eq!(random.number(), 0x06C4_5D18_8009_454F);
    }

    #[test]
    fn both_ends_are_reached() {
        let mut random = Random::new(5);
        let seen: Vec<usize> = (0..100).map(|_| random.between(3, 5)).collect();
        for value in 3..=5 {
            assert!(seen.contains(&value));
        }
        assert!(seen.iter().all(|value| (3..=5).contains(value)));
    }
}
