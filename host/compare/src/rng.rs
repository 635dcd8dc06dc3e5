//! A small random number generator (SplitMix64), so that a seed gives the same scripts everywhere.

/// The state's step from one number to the next.
const STEP: u64 = 0x9E37_79B9_7F4A_7C15;

/// A sequence of random numbers that its seed decides.
#[derive(Clone)]
pub struct Rng {
    state: u64,
}

impl Rng {
    /// The sequence of a seed.
    pub fn new(seed: u64) -> Self {
        Self { state: seed }
    }

    /// The sequence of one script of a section: scripts share nothing but the seed.
    pub fn of_script(seed: u64, section: &str, script: u64) -> Self {
        let mut state = Self::new(seed).word();
        for &byte in section.as_bytes() {
            state = Self::new(state ^ u64::from(byte)).word();
        }
        Self::new(Self::new(state ^ script).word())
    }

    /// The next 64 bits.
    pub fn word(&mut self) -> u64 {
        self.state = self.state.wrapping_add(STEP);
        let mut mixed = self.state;
        mixed = (mixed ^ (mixed >> 30)).wrapping_mul(0xBF58_476D_1CE4_E5B9);
        mixed = (mixed ^ (mixed >> 27)).wrapping_mul(0x94D0_49BB_1331_11EB);
        mixed ^ (mixed >> 31)
    }

    /// A number below `count`, which is at least 1.
    pub fn below(&mut self, count: usize) -> usize {
        let wide = u128::from(self.word()) * count as u128;
        (wide >> 64) as usize
    }

    /// A number from `lowest` to `highest`, both taken in.
    pub fn between(&mut self, lowest: i64, highest: i64) -> i64 {
        let count = (highest - lowest) as usize + 1;
        lowest + self.below(count) as i64
    }

    /// True in `percent` of a hundred cases.
    pub fn chance(&mut self, percent: usize) -> bool {
        self.below(100) < percent
    }

    /// One of the choices.
    pub fn pick<T: Copy>(&mut self, choices: &[T]) -> T {
        choices[self.below(choices.len())]
    }

    /// Any byte.
    pub fn byte(&mut self) -> u8 {
        self.word() as u8
    }

    /// `count` bytes of any value.
    pub fn bytes(&mut self, count: usize) -> Vec<u8> {
        (0..count).map(|_| self.byte()).collect()
    }

    /// Puts the entries in a random order.
    pub fn shuffle<T>(&mut self, entries: &mut [T]) {
        for last in (1..entries.len()).rev() {
            entries.swap(last, self.below(last + 1));
        }
    }
}

#[cfg(test)]
mod tests {
    use super::*;

    #[test]
    fn a_seed_gives_the_known_sequence() {
        let mut rng = Rng::new(0);
        assert_eq!(rng.word(), 0xE220_A839_7B1D_CDAF);
        assert_eq!(rng.word(), 0x6E78_9E6A_A1B9_65F4);
    }

    #[test]
    fn numbers_keep_their_range_and_reach_its_ends() {
        let mut rng = Rng::new(1);
        let drawn: Vec<i64> = (0..1000).map(|_| rng.between(-3, 4)).collect();
        assert_eq!(drawn.iter().min(), Some(&-3));
        assert_eq!(drawn.iter().max(), Some(&4));
    }

    #[test]
    fn scripts_have_sequences_of_their_own() {
        let first = Rng::of_script(1, "love", 0).word();
        assert_eq!(first, Rng::of_script(1, "love", 0).word());
        assert_ne!(first, Rng::of_script(1, "love", 1).word());
        assert_ne!(first, Rng::of_script(1, "lucid", 0).word());
        assert_ne!(first, Rng::of_script(2, "love", 0).word());
    }

    #[test]
    fn shuffling_keeps_the_entries() {
        let mut entries: Vec<u32> = (0..50).collect();
        Rng::new(9).shuffle(&mut entries);
        assert_ne!(entries, (0..50).collect::<Vec<u32>>());
        entries.sort_unstable();
        assert_eq!(entries, (0..50).collect::<Vec<u32>>());
    }
}
