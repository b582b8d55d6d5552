//! Random numbers that are the same in each run: SplitMix64.

pub struct Random(u64);

impl Random {
    /// A sequence of its own for each seed, family of rows and part of it.
    pub fn new(seed: u64, family: u64, part: u64) -> Random {
        let mut random = Random(seed);
        for more in [family, part] {
            random.0 = random.number() ^ more;
        }
        random
    }

    pub fn number(&mut self) -> u64 {
        self.0 = self.0.wrapping_add(0x9e37_79b9_7f4a_7c15);
        let mut z = self.0;
        z = (z ^ (z >> 30)).wrapping_mul(0xbf58_476d_1ce4_e5b9);
        z = (z ^ (z >> 27)).wrapping_mul(0x94d0_49bb_1331_11eb);
        z ^ (z >> 31)
    }

    /// A number below n, which is above 0 and below 2^32.
    pub fn below(&mut self, n: usize) -> usize {
        (((self.number() >> 32) * n as u64) >> 32) as usize
    }

    /// True once in n times.
    pub fn once_in(&mut self, n: usize) -> bool {
        self.below(n) == 0
    }

    pub fn one_of(&mut self, choices: &[u8]) -> u8 {
        choices[self.below(choices.len())]
    }
}
