//! The two arrays of a study, as a caller lends them.

use crate::networks;
use crate::study::{room, COUNTS, QUEUES, SPEEDS};
use oracle::book::{Call, Figures, Start};
use oracle::file;
use oracle::network::Network;
use oracle::study;

/// What stands in words that no one reads.
pub const FREE: u64 = 0xfeed_beef;
/// The bits of speeds that no one reads: a signalling NaN with a payload.
pub const FREE_SPEED: u64 = 0x7ff0_dead_feed_beef;
/// Words and speeds past those that the segments need.
const PAST: usize = 5;

#[derive(Clone)]
pub struct Lent {
    pub words: Vec<u64>,
    pub speeds: Vec<f64>,
}

impl Lent {
    /// Arrays for n segments that hold nothing yet.
    pub fn free(n: usize) -> Lent {
        Lent {
            words: vec![FREE; room(n).words + PAST],
            speeds: vec![f64::from_bits(FREE_SPEED); room(n).speeds + PAST],
        }
    }

    /// The study that the tests of the book begin with.
    pub fn started() -> Lent {
        let mut lent = Lent::free(3);
        let lists: [&[u64]; 3] = [&COUNTS, &SPEEDS, &QUEUES];
        assert_eq!(lent.start(&networks::three_segments(), lists), 0);
        lent
    }

    /// The study of the listing.
    pub fn tallies() -> Lent {
        let mut lent = Lent::free(1);
        let lists: [&[u64]; 3] = [&[20_000], &[90_000], &[5_000]];
        assert_eq!(lent.start(&networks::tallies(), lists), 0);
        lent
    }

    pub fn start(&mut self, network: &Network, [counts, speeds, queues]: [&[u64]; 3]) -> u8 {
        let file = file::write(network);
        self.number(&Call::Start(Start {
            file: &file,
            counts,
            speeds,
            queues,
        }))
    }

    pub fn step(&mut self, arrivals: &[u32]) -> u8 {
        self.number(&Call::Step { arrivals })
    }

    pub fn call(&mut self, call: &Call) -> Result<Figures, u8> {
        study::call(&mut self.words, &mut self.speeds, call)
    }

    pub fn number(&mut self, call: &Call) -> u8 {
        self.call(call).err().unwrap_or(0)
    }

    pub fn bits(&self) -> (Vec<u64>, Vec<u64>) {
        let speeds = self.speeds.iter().map(|speed| speed.to_bits());
        (self.words.clone(), speeds.collect())
    }

    /// No word and no bit past what the segments need has changed.
    pub fn assert_past(&self) {
        let (words, speeds) = self.bits();
        assert_eq!(words[words.len() - PAST..], [FREE; PAST]);
        assert_eq!(speeds[speeds.len() - PAST..], [FREE_SPEED; PAST]);
    }
}
