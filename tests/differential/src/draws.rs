//! The seeded generator of every input, and the kinds of numbers that the calls are tried with.

/// SplitMix64: one word of state, and every seed is a good one.
pub struct Draws {
    state: u64,
}

impl Draws {
    /// The draws of one round. Rounds have their own draws, so that one of them can be repeated alone.
    pub fn new(seed: u64, round: u64) -> Draws {
        let mut draws = Draws { state: seed };
        draws.state = draws.word().wrapping_add(round);
        draws.state = draws.word();
        draws
    }

    /// Any 64-bit number.
    pub fn word(&mut self) -> u64 {
        self.state = self.state.wrapping_add(0x9E37_79B9_7F4A_7C15);
        let mixed = (self.state ^ (self.state >> 30)).wrapping_mul(0xBF58_476D_1CE4_E5B9);
        let mixed = (mixed ^ (mixed >> 27)).wrapping_mul(0x94D0_49BB_1331_11EB);
        mixed ^ (mixed >> 31)
    }

    /// A number below `n`, which is at least 1.
    pub fn below(&mut self, n: u64) -> u64 {
        ((u128::from(self.word()) * u128::from(n)) >> 64) as u64
    }

    /// A number from `low` to `high`, both among them.
    pub fn between(&mut self, low: u64, high: u64) -> u64 {
        low + self.below(high - low + 1)
    }

    /// True once in `n` draws.
    pub fn one_in(&mut self, n: u64) -> bool {
        self.below(n) == 0
    }

    /// A place among `n`, which is at least 1.
    pub fn place(&mut self, n: usize) -> usize {
        self.below(n as u64) as usize
    }

    pub fn pick<T: Copy>(&mut self, among: &[T]) -> T {
        among[self.place(among.len())]
    }

    /// Puts all in any order.
    pub fn shuffle<T>(&mut self, all: &mut [T]) {
        for last in (1..all.len()).rev() {
            all.swap(last, self.place(last + 1));
        }
    }

    pub fn fill(&mut self, bytes: &mut [u8]) {
        for chunk in bytes.chunks_mut(8) {
            let word = self.word().to_le_bytes();
            chunk.copy_from_slice(&word[..chunk.len()]);
        }
    }

    pub fn bytes(&mut self, length: usize) -> Vec<u8> {
        let mut bytes = vec![0; length];
        self.fill(&mut bytes);
        bytes
    }

    /// From 1 to `most`, every number of bits as often as every other, both ends often.
    pub fn size(&mut self, most: u64) -> u64 {
        match self.below(8) {
            0 => 1,
            1 => most,
            _ => {
                let bits = self.between(0, u64::from(most.ilog2()));
                self.between(1 << bits, most.min((2 << bits) - 1))
            }
        }
    }

    /// A number where a mistake would show: at the ends of 64 bits, beside powers of two, anywhere.
    pub fn edge(&mut self) -> u64 {
        match self.below(6) {
            0 => self.below(4),
            1 => u64::MAX - self.below(4),
            2 => (1 << 63) - 1 + self.below(3),
            3 => (1_u64 << self.between(1, 63)) - 1 + self.below(3),
            4 => self.word() >> self.below(64),
            _ => self.word(),
        }
    }

    /// Mostly below `limit`, else at it, beside it or at an edge.
    pub fn near(&mut self, limit: u64) -> u64 {
        match self.below(16) {
            0 => limit,
            1 => limit.saturating_add(1),
            2 => self.edge(),
            3 => limit.saturating_sub(1),
            _ => self.below(limit.max(1)),
        }
    }

    /// Mostly the right length, else a wrong one.
    pub fn length(&mut self, right: usize) -> usize {
        if self.one_in(8) {
            self.wrong_length(right)
        } else {
            right
        }
    }

    /// None, one less, one more, much longer, or any other.
    pub fn wrong_length(&mut self, right: usize) -> usize {
        match self.below(5) {
            0 => 0,
            1 => right.saturating_sub(1),
            2 => right + 1,
            3 => 2 * right + 100,
            _ => self.place(2 * right + 2),
        }
    }
}
