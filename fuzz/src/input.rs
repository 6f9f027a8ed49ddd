//! The bytes of an input, taken from the front. After the last one come zeros.

use harness::random::Random;

/// Ends of ranges and of number widths.
const EDGES: [u64; 16] = [
    u64::MAX,
    1 << 63,
    1 << 32,
    200,
    500,
    1_000,
    2_000,
    20_000,
    60_000,
    200_000,
    300_000,
    1_000_000,
    1_000_000_000_000,
    60_000_000_000_000,
    1_000_000_000_000_000_000,
    -500_i64 as u64,
];

pub struct Input<'a> {
    rest: &'a [u8],
}

impl<'a> Input<'a> {
    pub fn new(bytes: &'a [u8]) -> Input<'a> {
        Input { rest: bytes }
    }

    pub fn is_over(&self) -> bool {
        self.rest.is_empty()
    }

    /// All bytes that are left.
    pub fn rest(&mut self) -> &'a [u8] {
        std::mem::take(&mut self.rest)
    }

    pub fn byte(&mut self) -> u8 {
        let [byte] = self.bytes();
        byte
    }

    /// A number below `limit`, which is 1..256, from one byte.
    pub fn below(&mut self, limit: usize) -> usize {
        usize::from(self.byte()) % limit
    }

    /// Any number, of one byte or more: most below 128, then of 1, 2, 4 or 8
    /// bytes, or beside an edge.
    pub fn number(&mut self) -> u64 {
        let first = self.byte();
        match first >> 4 {
            0..=7 => u64::from(first),
            8 | 9 => u64::from(self.byte()),
            10 | 11 => u64::from(u16::from_le_bytes(self.bytes())),
            12 | 13 => u64::from(u32::from_le_bytes(self.bytes())),
            14 => u64::from_le_bytes(self.bytes()),
            _ => self.beside(EDGES[usize::from(first & 15)]),
        }
    }

    /// Beside an edge, or the edge itself.
    pub fn edge(&mut self) -> u64 {
        let edge = EDGES[self.below(EDGES.len())];
        self.beside(edge)
    }

    /// A number below `limit`, which is not 0.
    pub fn place(&mut self, limit: usize) -> usize {
        (self.number() % limit as u64) as usize
    }

    /// A generator that two bytes choose, for what is made as the tests of the
    /// harness make it.
    pub fn random(&mut self) -> Random {
        Random::new(u64::from(u16::from_le_bytes(self.bytes())), 0, 0)
    }

    fn beside(&mut self, edge: u64) -> u64 {
        edge.wrapping_add(self.below(3) as u64).wrapping_sub(1)
    }

    fn bytes<const N: usize>(&mut self) -> [u8; N] {
        let mut bytes = [0; N];
        let taken = N.min(self.rest.len());
        bytes[..taken].copy_from_slice(&self.rest[..taken]);
        self.rest = &self.rest[taken..];
        bytes
    }
}
