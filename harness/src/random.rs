//! A small seeded generator: xoshiro256**, its state filled by splitmix64.

pub struct Random {
    state: [u64; 4],
}

impl Random {
    /// The generator of one input of one test: the same three numbers give
    /// the same input again.
    pub fn new(seed: u64, test: u64, input: u64) -> Random {
        let mut start = seed;
        for part in [test, input] {
            start = splitmix(&mut start) ^ part;
        }
        Random {
            state: std::array::from_fn(|_| splitmix(&mut start)),
        }
    }

    /// Any 64-bit number.
    pub fn number(&mut self) -> u64 {
        let state = &mut self.state;
        let result = state[1].wrapping_mul(5).rotate_left(7).wrapping_mul(9);
        let shifted = state[1] << 17;
        state[2] ^= state[0];
        state[3] ^= state[1];
        state[1] ^= state[2];
        state[0] ^= state[3];
        state[2] ^= shifted;
        state[3] = state[3].rotate_left(45);
        result
    }

    /// A number below `limit`, which is not 0.
    pub fn below(&mut self, limit: u64) -> u64 {
        ((u128::from(self.number()) * u128::from(limit)) >> 64) as u64
    }

    /// A number in `low..=high`.
    pub fn between(&mut self, low: u64, high: u64) -> u64 {
        low + self.below(high - low + 1)
    }

    /// A number in `low..=high`: each end one time in four.
    pub fn edge(&mut self, low: u64, high: u64) -> u64 {
        match self.below(4) {
            0 => low,
            1 => high,
            _ => self.between(low, high),
        }
    }

    /// True one time in `times`.
    pub fn once_in(&mut self, times: u64) -> bool {
        self.below(times) == 0
    }

    /// One of the numbers.
    pub fn one_of(&mut self, numbers: &[u64]) -> u64 {
        numbers[self.below(numbers.len() as u64) as usize]
    }

    /// A number in `0..=most` outside `low..=high`, often next to an end.
    /// At least one such number exists.
    pub fn outside(&mut self, low: u64, high: u64, most: u64) -> u64 {
        loop {
            let number = match self.below(5) {
                0 => low.saturating_sub(1),
                1 => high.saturating_add(1).min(most),
                2 => most,
                3 => high.saturating_add(self.below(256)).min(most),
                _ => self.number() % most.max(1),
            };
            if number < low || number > high {
                return number;
            }
        }
    }

    pub fn fill(&mut self, bytes: &mut [u8]) {
        for part in bytes.chunks_mut(8) {
            let number = self.number().to_le_bytes();
            part.copy_from_slice(&number[..part.len()]);
        }
    }
}

/// The next number of splitmix64.
fn splitmix(state: &mut u64) -> u64 {
    *state = state.wrapping_add(0x9e37_79b9_7f4a_7c15);
    let mixed = (*state ^ (*state >> 30)).wrapping_mul(0xbf58_476d_1ce4_e5b9);
    let mixed = (mixed ^ (mixed >> 27)).wrapping_mul(0x94d0_49bb_1331_11eb);
    mixed ^ (mixed >> 31)
}
