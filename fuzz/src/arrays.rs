//! Words and speeds that are about to be lent, of any content and length.

use crate::input::Input;
use harness::random::Random;
use harness::speeds::{no_number, strew, unread};
use harness::study::{case_word, ARRANGEMENT, ARRANGEMENT_WORD};
use harness::words::{entry_word, field_word, garbage};
use oracle::book::SLOTS;

/// Speeds that look odd.
const ODD: [f64; 7] = [
    f64::INFINITY,
    f64::NEG_INFINITY,
    -0.0,
    5e-324,
    999.999_999_999,
    1_000.0,
    200_000.000_000_1,
];
/// The bits of speeds past those that were made: a signalling NaN.
const PAST: u64 = 0x7ff0_dead_feed_beef;

/// Most changes would hide one another if there were many.
const CHANGES: [usize; 8] = [0, 0, 0, 1, 1, 1, 2, 6];

/// Both arrays.
pub struct Made {
    pub words: Vec<u64>,
    pub speeds: Vec<f64>,
    /// Segments of the network that was put in.
    pub n: usize,
}

impl Made {
    /// As they are, or other numbers throughout. The arrangement number may
    /// stay, so that more is looked at.
    pub fn fill(&mut self, input: &mut Input, random: &mut Random) {
        match input.below(16) {
            0 => self.words.fill(0),
            1 => self.words = garbage(random, self.words.len()),
            2 => self.words.fill_with(|| random.number()),
            3 => self.speeds = unread(random, self.speeds.len()),
            4 | 5 => strew(random, &mut self.speeds),
            6 => self.words[ARRANGEMENT_WORD] = input.number(),
            _ => return,
        }
        if input.below(2) == 1 {
            self.words[ARRANGEMENT_WORD] = ARRANGEMENT;
        }
    }

    /// Exactly so many words and speeds, one of either too few, more, or any
    /// numbers of them.
    pub fn cut(&mut self, input: &mut Input, words: usize, speeds: usize) {
        let (words, speeds) = match input.below(16) {
            0 => (words - 1, speeds),
            1 => (words, speeds - 1),
            2 | 3 => (words + input.below(64), speeds + input.below(16)),
            4 => (input.place(words), speeds),
            5 => (words, input.place(speeds)),
            6 => (0, 0),
            7 => (case_word(self.n, 0) - 1, speeds),
            _ => (words, speeds),
        };
        self.words.resize(words, u64::MAX);
        self.speeds.resize(speeds, f64::from_bits(PAST));
    }

    /// Some changes, or none.
    pub fn patch(&mut self, input: &mut Input) {
        for _ in 0..CHANGES[input.below(CHANGES.len())] {
            match input.below(4) {
                0 => self.patch_speed(input),
                _ => self.patch_words(input),
            }
        }
    }

    fn patch_speed(&mut self, input: &mut Input) {
        let at = input.place(self.speeds.len().max(1));
        let Some(speed) = self.speeds.get_mut(at) else {
            return;
        };
        *speed = match input.below(5) {
            0 => ODD[input.below(ODD.len())],
            1 => f64::from_bits(speed.to_bits() ^ 1 << input.below(64)),
            2 => f64::from_bits(input.number()),
            3 => no_number(&mut input.random()),
            _ => input.number() as f64,
        };
    }

    /// One word changed, or a run of words that stand in the input.
    fn patch_words(&mut self, input: &mut Input) {
        let at = self.place(input);
        let Some(words) = self.words.get_mut(at..) else {
            return;
        };
        let Some(word) = words.first_mut() else {
            return;
        };
        match input.below(8) {
            0 => *word ^= 1 << input.below(64),
            1 => *word = word.wrapping_add(1),
            2 => *word = word.wrapping_sub(1),
            3 => {
                let length = input.below(24);
                words
                    .iter_mut()
                    .take(length)
                    .for_each(|word| *word = input.number());
            }
            4 | 5 => *word = input.edge(),
            _ => *word = input.number(),
        }
    }

    /// A word of the head, a curve, a record, the marks, a case, or any.
    fn place(&self, input: &mut Input) -> usize {
        match input.below(8) {
            0 => input.below(16),
            1 => entry_word(input.below(8), input.below(201)),
            2 => field_word(input.below(self.n), input.below(16)),
            3 => case_word(self.n, 0) - 1 - input.below(16),
            4..=6 => {
                let case = case_word(self.n, input.below(SLOTS + 1));
                case + 16 * input.below(self.n + 1) + input.below(16)
            }
            _ => input.place(self.words.len().max(1)),
        }
    }
}
