//! The two arrays that a study is lent.

use crate::random::Random;
use crate::speeds;
use crate::study::word_name;
use crate::words::garbage;

/// Elements behind what is lent, which no call may touch.
const BEHIND: usize = 24;

/// The two arrays. What is lent of them may be less than there is: the rest
/// stands behind what is lent, and no call may touch it.
#[derive(Clone)]
pub struct Arrays {
    pub words: Box<[u64]>,
    pub speeds: Box<[f64]>,
    pub lent_words: usize,
    pub lent_speeds: usize,
}

impl Arrays {
    /// All of it lent.
    pub fn lend_all(words: Vec<u64>, speeds: Vec<f64>) -> Arrays {
        Arrays {
            lent_words: words.len(),
            lent_speeds: speeds.len(),
            words: words.into(),
            speeds: speeds.into(),
        }
    }

    /// So many of each lent, full of garbage. There may be more behind them,
    /// or they end where what is lent ends, so that a memory checker sees any
    /// touch past it.
    pub fn garbage(random: &mut Random, words: usize, speeds: usize, more: bool) -> Arrays {
        let behind = if more { BEHIND } else { 0 };
        let all_words = garbage(random, words + behind);
        let all_speeds = speeds::unread(random, speeds + behind);
        Arrays {
            lent_words: words,
            lent_speeds: speeds,
            ..Arrays::lend_all(all_words, all_speeds)
        }
    }

    pub fn lent(&mut self) -> (&mut [u64], &mut [f64]) {
        (
            &mut self.words[..self.lent_words],
            &mut self.speeds[..self.lent_speeds],
        )
    }

    /// Every word and every bit is the same.
    pub fn same(&self, other: &Arrays) -> bool {
        let mut bits = self.speeds.iter().zip(&other.speeds);
        self.words == other.words
            && self.speeds.len() == other.speeds.len()
            && bits.all(|(one, other)| one.to_bits() == other.to_bits())
    }

    /// Becomes the same as arrays of the same lengths.
    pub fn follow(&mut self, other: &Arrays) {
        self.words.copy_from_slice(&other.words);
        self.speeds.copy_from_slice(&other.speeds);
    }

    /// The first word or speed of the engine's that is not as expected, in
    /// words.
    pub fn first_difference(&self, expected: &Arrays) -> Option<String> {
        if self.same(expected) {
            return None;
        }
        let mut words = expected.words.iter().zip(&self.words);
        if let Some(at) = words.position(|(right, wrong)| right != wrong) {
            let (right, wrong) = (expected.words[at], self.words[at]);
            let name = word_name(&expected.words, at);
            return Some(format!("{name}: expected {right}, engine {wrong}"));
        }
        let bits = |arrays: &Arrays, at: usize| arrays.speeds[at].to_bits();
        let at = (0..self.speeds.len()).find(|&at| bits(self, at) != bits(expected, at))?;
        let (right, wrong) = (expected.speeds[at], self.speeds[at]);
        Some(format!(
            "speed {at}: expected {right} ({:#x}), engine {wrong} ({:#x})",
            right.to_bits(),
            wrong.to_bits()
        ))
    }

    /// What is lent, all words and all bits, for a reader.
    pub fn in_words(&self) -> String {
        let lent = (self.lent_words, self.lent_speeds);
        let bits: Vec<u64> = self.speeds.iter().map(|speed| speed.to_bits()).collect();
        format!("lent {lent:?}\nwords {:?}\nbits {bits:?}\n", self.words)
    }
}
