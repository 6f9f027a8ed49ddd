//! Row 12: run count, marks and arrangement number.

use super::stored::outside;
use super::{unsound, Damage, Part};
use crate::arrays::Arrays;
use crate::random::Random;
use crate::study::{ARRANGEMENT, ARRANGEMENT_WORD, MOST_RUNS, RUNS};
use oracle::book::SLOTS;

pub const DAMAGES: &[Damage<Arrays>] = &[
    unsound("the run count", Part::File, |arrays, _, random| {
        spoil(arrays, RUNS, 0, MOST_RUNS, random)
    }),
    unsound("a mark", Part::File, |arrays, _, random| {
        let slot = random.between(1, SLOTS as u64) as usize;
        spoil(arrays, RUNS + slot, 0, 1, random)
    }),
    unsound("the arrangement number", Part::File, |arrays, _, random| {
        spoil(arrays, ARRANGEMENT_WORD, ARRANGEMENT, ARRANGEMENT, random)
    }),
];

/// A word outside `low..=high`.
fn spoil(arrays: &mut Arrays, word: usize, low: u64, high: u64, random: &mut Random) {
    arrays.words[word] = outside(arrays.words[word], low, high, random);
}
