//! A small generator of random numbers: the same seed, the same numbers.

pub struct Source {
    state: u64,
}

impl Source {
    pub fn new(seed: u64) -> Self {
        Source { state: seed }
    }

    /// SplitMix64: a counter, mixed.
    pub fn word(&mut self) -> u64 {
        self.state = self.state.wrapping_add(0x9E37_79B9_7F4A_7C15);
        let mut z = self.state;
        z = (z ^ (z >> 30)).wrapping_mul(0xBF58_476D_1CE4_E5B9);
        z = (z ^ (z >> 27)).wrapping_mul(0x94D0_49BB_1331_11EB);
        z ^ (z >> 31)
    }

    pub fn below(&mut self, n: usize) -> usize {
        (self.word() % n as u64) as usize
    }

    /// Once in n times.
    pub fn once_in(&mut self, n: usize) -> bool {
        self.below(n) == 0
    }

    pub fn pick<T: Copy>(&mut self, of: &[T]) -> T {
        of[self.below(of.len())]
    }

    pub fn bytes<const N: usize>(&mut self) -> [u8; N] {
        std::array::from_fn(|_| self.word() as u8)
    }

    /// A number of any length in bits.
    pub fn number(&mut self) -> u64 {
        let bits = self.below(65) as u32;
        self.word().checked_shr(64 - bits).unwrap_or(0)
    }
}
