//! Random numbers of a seed: the same seed gives the same numbers, on every machine. They are good enough to draw by and keep no secrets.
use std::collections::hash_map::RandomState;
use std::hash::{BuildHasher, Hasher};

/// The generator SplitMix64.
pub struct Random(u64);

/// A seed that nobody chose, short enough to be written again.
pub fn any_seed() -> u64 {
    RandomState::new().build_hasher().finish() >> 32
}

impl Random {
    pub fn new(seed: u64) -> Random {
        Random(seed)
    }

    fn word(&mut self) -> u64 {
        self.0 = self.0.wrapping_add(0x9e37_79b9_7f4a_7c15);
        let mixed = (self.0 ^ self.0 >> 30).wrapping_mul(0xbf58_476d_1ce4_e5b9);
        let mixed = (mixed ^ mixed >> 27).wrapping_mul(0x94d0_49bb_1331_11eb);
        mixed ^ mixed >> 31
    }

    /// A number below this one, each as likely as any other: a word beyond the last whole multiple of it is drawn again.
    pub fn below(&mut self, number: u64) -> u64 {
        let beyond = (u64::MAX % number + 1) % number;
        loop {
            let word = self.word();
            if word <= u64::MAX - beyond {
                return word % number;
            }
        }
    }
}

#[cfg(test)]
mod tests {
    use super::*;

    /// The first words of the published generator for seed 1234567.
    #[test]
    fn the_published_words() {
        let mut random = Random::new(1_234_567);
        let words = [6_457_827_717_110_365_317, 3_203_168_211_198_807_973, 9_817_491_932_198_370_423];
        assert_eq!([random.word(), random.word(), random.word()], words);
    }

    #[test]
    fn below_a_number() {
        let mut random = Random::new(7);
        let mut seen = [0; 3];
        (0..30_000).for_each(|_| seen[random.below(3) as usize] += 1);
        assert!(seen.iter().all(|times| (9_700..10_300).contains(times)), "{seen:?}");
        assert_eq!(random.below(1), 0);
        // of a number just above half of all words almost every second word is drawn again
        let large = (1 << 63) + 1;
        assert!((0..1_000).all(|_| random.below(large) < large));
        assert!((0..1_000).all(|_| random.below(u64::MAX) < u64::MAX));
    }
}
