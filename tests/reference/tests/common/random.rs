//! A small deterministic generator, so that a failure can be run again.

/// SplitMix64.
pub struct Random(u64);

impl Random {
    /// Prints the seed; a failing test shows it.
    pub fn new(seed: u64) -> Random {
        println!("seed {seed}");
        Random(seed)
    }

    pub fn next(&mut self) -> u64 {
        self.0 = self.0.wrapping_add(0x9e37_79b9_7f4a_7c15);
        let mut mixed = self.0;
        mixed = (mixed ^ (mixed >> 30)).wrapping_mul(0xbf58_476d_1ce4_e5b9);
        mixed = (mixed ^ (mixed >> 27)).wrapping_mul(0x94d0_49bb_1331_11eb);
        mixed ^ (mixed >> 31)
    }

    /// A number below the bound.
    pub fn below(&mut self, bound: u32) -> u32 {
        (self.next() % u64::from(bound)) as u32
    }

    /// True once in so many times.
    pub fn once_in(&mut self, times: u32) -> bool {
        self.below(times) == 0
    }

    pub fn pick<T: Copy>(&mut self, choices: &[T]) -> T {
        choices[self.below(choices.len() as u32) as usize]
    }

    /// Any word, with the ones near a limit often among them.
    pub fn word(&mut self) -> u32 {
        match self.below(6) {
            0 => self.next() as u32,
            1 => self.below(20),
            2 => self.below(1100),
            3 => 999_999_990 + self.below(20),
            4 => self.pick(&[0, 64, 65, 65_534, 65_535, 65_536, u32::MAX]),
            _ => self.below(90),
        }
    }

    /// A leading digit, sometimes a word that is none.
    pub fn digit(&mut self) -> u32 {
        match self.below(8) {
            0 => 10 + self.below(2),
            1 => self.word(),
            2..=4 => 0,
            _ => self.below(10),
        }
    }
}
