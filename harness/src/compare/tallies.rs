//! The paper's listing in a study's arrays: both steps, every figure.

use super::both::Both;
use super::Difference;
use crate::arrays::Arrays;
use crate::calls::{Call, Start};
use crate::random::Random;
use crate::stored_case::{state_word, total_word};
use crate::stored_case::{COUNT, LAST_OUTFLOW, LAST_RELEASE, QUEUE, RATE, REMAINDER, STEPS};
use crate::study::{case_word, speeds_for, words_for, RUNS};
use oracle::file::{self, Followers, Network, Segment};
use oracle::network::ENTRIES;

/// The network of the listing.
fn network() -> Network {
    Network {
        version: 1,
        step: 10,
        relaxation: 20,
        anticipation: 0,
        kappa: 40,
        merging: 0,
        curves: vec![[100_000; ENTRIES]],
        segments: vec![Segment {
            length: 500,
            lanes: 2,
            curve: 0,
            critical: 30,
            jam: 180,
            origin: true,
            exit_share: 0,
            most_released: 6_000,
            followers: Followers::NONE,
        }],
    }
}

/// One line of the listing, and what the step to it made.
struct Listed {
    /// mv that arrive in the step.
    arriving: u32,
    /// steps, segments, queues, arrivals, exits, time.
    figures: [u64; 6],
    speed: f64,
    outflow: u64,
    /// b: 16,000 × 95,000 × 10 is 8,444 × 3600 × 500 and 800,000.
    remainder: u64,
    release: u64,
}

const LISTING: [Listed; 2] = [
    Listed {
        arriving: 4_000,
        figures: [1, 16_000, 3_000, 4_000, 10_000, 250_000],
        speed: 95_000.0,
        outflow: 10_000,
        remainder: 0,
        release: 6_000,
    },
    Listed {
        arriving: 0,
        figures: [2, 10_556, 0, 4_000, 18_444, 440_000],
        speed: 97_500.0,
        outflow: 8_444,
        remainder: 800_000,
        release: 3_000,
    },
];

pub fn one(random: &mut Random, _: u64) -> Result<(), Difference> {
    let arrays = Arrays::garbage(random, words_for(1), speeds_for(1), true);
    let mut both = Both::new(arrays);
    let start = Start {
        file: file::write(&network()).into(),
        counts: vec![20_000],
        speeds: vec![90_000],
        queues: vec![5_000],
    };
    both.expect(Call::Start(start), 0)?;
    for listed in &LISTING {
        let mut expected = both.lent().0.to_vec();
        listed.put(&mut expected);
        both.expect(Call::Step([listed.arriving].into()), 0)?;
        let (words, speeds) = both.lent();
        if words != expected || speeds[0].to_bits() != listed.speed.to_bits() {
            return Err(both.differs("both sides differ from the paper's listing"));
        }
    }
    Ok(())
}

impl Listed {
    /// The figures after the step, each at its word.
    fn put(&self, words: &mut [u64]) {
        let [steps, segments, queues, arrivals, exits, time] = self.figures;
        words[RUNS] = steps;
        let case = &mut words[case_word(1, 0)..];
        case[state_word(0, COUNT)] = segments;
        case[state_word(0, QUEUE)] = queues;
        case[state_word(0, RATE)] = 6_000;
        case[state_word(0, LAST_OUTFLOW)] = self.outflow;
        case[state_word(0, LAST_RELEASE)] = self.release;
        case[state_word(0, REMAINDER)] = self.remainder;
        let totals = [steps, arrivals, exits, time];
        case[total_word(1, STEPS)..][..totals.len()].copy_from_slice(&totals);
    }
}
