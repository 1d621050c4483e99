//! Chance that can be replayed: splitmix64.

pub struct Random {
    state: u64,
    /// Whether scripts may leave what the original can be asked: texts of any bytes, a start under Set.
    pub beyond: bool,
}

impl Random {
    pub fn new(seed: u64, index: u64) -> Random {
        let mut random = Random { state: seed, beyond: false };
        let mixed = random.next() ^ index;
        Random { state: mixed, beyond: false }
    }

    pub fn next(&mut self) -> u64 {
        self.state = self.state.wrapping_add(0x9E37_79B9_7F4A_7C15);
        let mut z = self.state;
        z = (z ^ (z >> 30)).wrapping_mul(0xBF58_476D_1CE4_E5B9);
        z = (z ^ (z >> 27)).wrapping_mul(0x94D0_49BB_1331_11EB);
        z ^ (z >> 31)
    }

    /// Below `bound`, which is not 0.
    pub fn below(&mut self, bound: u64) -> u64 {
        self.next() % bound
    }

    /// From `least` to `most`, both possible.
    pub fn within(&mut self, least: u64, most: u64) -> u64 {
        least + self.below(most - least + 1)
    }

    /// True once in `count` times.
    pub fn once_in(&mut self, count: u64) -> bool {
        self.below(count) == 0
    }

    pub fn pick<'a, T>(&mut self, items: &'a [T]) -> &'a T {
        &items[self.below(items.len() as u64) as usize]
    }

    pub fn place(&mut self, len: usize) -> usize {
        self.below(len as u64) as usize
    }
}
