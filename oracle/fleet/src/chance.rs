//! Chance that belongs to a moment and not to what was drawn before it: the same schedule in every mode and on every side. splitmix64.

/// What a draw is for. Each has draws of its own.
#[derive(Clone, Copy)]
pub enum For {
    Phase,
    Peer,
    Peers,
    Ties,
    Digest,
    Answer,
    Write,
    Off,
    Skew,
    Wrong,
}

#[derive(Clone, Copy)]
pub struct Chance(u64);

fn mix(mut z: u64) -> u64 {
    z = (z ^ (z >> 30)).wrapping_mul(0xBF58_476D_1CE4_E5B9);
    z = (z ^ (z >> 27)).wrapping_mul(0x94D0_49BB_1331_11EB);
    z ^ (z >> 31)
}

impl Chance {
    pub fn of(seed: u64, purpose: For, who: usize, when: u64) -> Chance {
        let mut state = mix(seed.wrapping_add(0x9E37_79B9_7F4A_7C15));
        for word in [purpose as u64, who as u64, when] {
            state = mix(state.wrapping_add(word).wrapping_add(0x9E37_79B9_7F4A_7C15));
        }
        Chance(state)
    }

    pub fn next(&mut self) -> u64 {
        self.0 = self.0.wrapping_add(0x9E37_79B9_7F4A_7C15);
        mix(self.0)
    }

    /// Below `bound`, which is not 0.
    pub fn below(&mut self, bound: usize) -> usize {
        (self.next() % bound as u64) as usize
    }

    /// True in so many of a thousand times.
    pub fn thousandth(&mut self, times: usize) -> bool {
        self.below(1_000) < times
    }
}
