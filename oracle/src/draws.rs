//! The seeded generator of the programs' inputs (oracle/README.md, "Draws").

/// The state of the generator of inputs, below 2^31.
#[derive(Clone, Copy, Debug)]
pub struct Draws {
    state: u64,
}

impl Draws {
    /// Starts from a seed below 2^31.
    pub fn new(seed: u64) -> Self {
        Draws { state: seed }
    }

    /// A number below `n`, for n from 1 to 32,768.
    pub fn draw(&mut self, n: u64) -> u64 {
        assert!((1..=32_768).contains(&n));
        self.state = (1_103_515_245 * self.state + 12_345) % 2_147_483_648;
        (self.state / 65_536) % n
    }

    /// A number below 2^30: two draws, the first one high.
    pub fn wide(&mut self) -> u64 {
        let high = self.draw(32_768);
        high * 32_768 + self.draw(32_768)
    }

    /// A number below 2^45: three draws, the first one highest.
    pub fn wider(&mut self) -> u64 {
        let high = self.wide();
        high * 32_768 + self.draw(32_768)
    }

    /// A number below 2^64 that uses its highest bits: `wider` times 2^19.
    pub fn high(&mut self) -> u64 {
        self.wider() * 524_288
    }

    /// A byte.
    pub fn byte(&mut self) -> u8 {
        self.draw(256) as u8
    }

    /// Fills a buffer from its first byte to its last.
    pub fn fill(&mut self, bytes: &mut [u8]) {
        for byte in bytes {
            *byte = self.byte();
        }
    }
}

/// The checksum of a buffer: c' = (c·31 + byte + 1) mod 2147483647 from 0.
pub fn checksum(bytes: &[u8]) -> u64 {
    bytes
        .iter()
        .fold(0, |c, byte| (c * 31 + u64::from(*byte) + 1) % 2_147_483_647)
}
