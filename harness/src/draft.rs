//! A valid file that a test is about to damage.

use crate::bounds::{too_short, Bound};
use crate::networks::cut_off;
use crate::random::Random;
use oracle::file::{self, Network};

/// Bytes of a head.
pub const HEAD: usize = 16;
/// Bytes of a curve.
pub const CURVE: usize = 804;

/// Bytes of a record of that version.
pub fn record_length(version: u16) -> usize {
    if version == 1 {
        16
    } else {
        20
    }
}

pub struct Draft {
    /// The network before the damage.
    pub network: Network,
    pub bytes: Vec<u8>,
}

impl Draft {
    pub fn new(network: Network) -> Draft {
        let bytes = file::write(&network);
        Draft { network, bytes }
    }

    pub fn put8(&mut self, at: usize, number: u64) {
        self.bytes[at] = number as u8;
    }

    pub fn put16(&mut self, at: usize, number: u64) {
        self.bytes[at..at + 2].copy_from_slice(&(number as u16).to_be_bytes());
    }

    pub fn put32(&mut self, at: usize, number: u64) {
        self.bytes[at..at + 4].copy_from_slice(&(number as u32).to_be_bytes());
    }

    /// Where an entry of a curve stands in the file.
    pub fn entry_at(&self, curve: usize, entry: usize) -> usize {
        HEAD + CURVE * curve + 4 * entry
    }

    /// Where a record (from 0) begins in the file.
    pub fn record_at(&self, record: usize) -> usize {
        let curves = CURVE * self.network.curves.len();
        HEAD + curves + record_length(self.network.version) * record
    }

    /// Followers and share of a record of version 2.
    pub fn put_followers(&mut self, record: usize, [first, second, share]: [u64; 3]) {
        let at = self.record_at(record) + 16;
        self.put8(at, first);
        self.put8(at + 1, second);
        self.put16(at + 2, share);
    }

    /// No segment is before a record's, and it has no origin: all that entered
    /// it leave it out.
    pub fn cut_off(&mut self, record: usize) {
        cut_off(&mut self.network, record);
        self.bytes = file::write(&self.network);
    }

    /// A byte changed to any other value.
    pub fn spoil(&mut self, at: usize, random: &mut Random) {
        self.bytes[at] ^= random.between(1, 255) as u8;
    }

    /// One metre less than the segment's free speed permits.
    pub fn shorten(&mut self, record: usize) {
        self.put16(self.record_at(record), too_short(&self.network, record));
    }

    /// The file of the same network with F × T and 3600 × L as they are here.
    pub fn rebound(&mut self, record: usize, bound: Bound) {
        bound.put(&mut self.network, record);
        self.bytes = file::write(&self.network);
    }
}
