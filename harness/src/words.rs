//! The network as stored words, a word a number.
//!
//! Words 0..7 are T, n, c, τ, ν, κ, δ and the version; then curves from word
//! 16, 201 words each, and records from word 1624, 16 words each, 11 of them
//! used.

use crate::bounds::{too_short, Bound};
use crate::networks::cut_off;
use crate::random::Random;
use oracle::file::{Network, Segment};

/// Words lent for a network.
pub const NETWORK_WORDS: usize = 2560;
/// Words of garbage of one kind.
const GARBAGE_RUN: usize = 32;

/// A stored network that a test is about to damage.
pub struct Stored {
    /// The network before the damage.
    pub network: Network,
    /// Its words, and all that come after them.
    pub words: Vec<u64>,
}

impl Stored {
    /// One metre less than the segment's free speed permits.
    pub fn shorten(&mut self, record: usize) {
        self.words[field_word(record, 0)] = too_short(&self.network, record);
    }

    /// No segment is before a record's, and it has no origin.
    pub fn cut_off(&mut self, record: usize) {
        cut_off(&mut self.network, record);
        put_network(&self.network, &mut self.words);
    }

    /// The same network with F × T and 3600 × L as they are here.
    pub fn rebound(&mut self, record: usize, bound: Bound) {
        bound.put(&mut self.network, record);
        put_network(&self.network, &mut self.words);
    }
}

/// Puts the network into its words; the others stay.
pub fn put_network(network: &Network, words: &mut [u64]) {
    words[..8].copy_from_slice(&head(network));
    for (curve, entries) in network.curves.iter().enumerate() {
        let entries = entries.map(u64::from);
        words[entry_word(curve, 0)..][..entries.len()].copy_from_slice(&entries);
    }
    for (record, segment) in network.segments.iter().enumerate() {
        words[field_word(record, 0)..][..11].copy_from_slice(&fields(segment));
    }
}

/// The word of an entry of a curve.
pub fn entry_word(curve: usize, entry: usize) -> usize {
    16 + 201 * curve + entry
}

/// The word of a field of a record (from 0): L, H, curve, C, J, origin, X, Q,
/// first and second follower, share.
pub fn field_word(record: usize, field: usize) -> usize {
    1624 + 16 * record + field
}

/// So many words that say nothing: any numbers, such that look like fields,
/// or 0.
pub fn garbage(random: &mut Random, count: usize) -> Vec<u64> {
    let mut words = vec![0; count];
    for run in words.chunks_mut(GARBAGE_RUN) {
        match random.below(3) {
            0 => run.fill_with(|| random.number()),
            1 => run.fill_with(|| random.below(300)),
            _ => {}
        }
    }
    words
}

fn head(network: &Network) -> [u64; 8] {
    [
        u64::from(network.step),
        network.segments.len() as u64,
        network.curves.len() as u64,
        u64::from(network.relaxation),
        u64::from(network.anticipation),
        u64::from(network.kappa),
        u64::from(network.merging),
        u64::from(network.version),
    ]
}

fn fields(segment: &Segment) -> [u64; 11] {
    [
        u64::from(segment.length),
        u64::from(segment.lanes),
        u64::from(segment.curve),
        u64::from(segment.critical),
        u64::from(segment.jam),
        u64::from(segment.origin),
        u64::from(segment.exit_share),
        u64::from(segment.most_released),
        u64::from(segment.followers.first),
        u64::from(segment.followers.second),
        u64::from(segment.followers.share),
    ]
}
