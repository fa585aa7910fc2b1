//! Random numbers that are the same on every machine: xorshift64*, from a seed.

pub struct Random(u64);

impl Random {
    /// The state may not be 0, and nearby seeds should not begin alike.
    pub fn of_seed(seed: u64) -> Random {
        let mut random = Random(seed.wrapping_mul(0x9E37_79B9_7F4A_7C15) | 1);
        for _ in 0..8 {
            random.word();
        }
        random
    }

    pub fn word(&mut self) -> u64 {
        self.0 ^= self.0 >> 12;
        self.0 ^= self.0 << 25;
        self.0 ^= self.0 >> 27;
        self.0.wrapping_mul(0x2545_F491_4F6C_DD1D)
    }

    /// From 0 to one less than `limit`, which is not 0.
    pub fn below(&mut self, limit: usize) -> usize {
        ((self.word() >> 32) * limit as u64 >> 32) as usize
    }

    pub fn between(&mut self, least: usize, most: usize) -> usize {
        least + self.below(most - least + 1)
    }

    pub fn up_to(&mut self, most: u32) -> u32 {
        self.below(most as usize + 1) as u32
    }

    pub fn one_in(&mut self, many: usize) -> bool {
        self.below(many) == 0
    }

    pub fn pick<T: Copy>(&mut self, choices: &[T]) -> T {
        choices[self.below(choices.len())]
    }
}
