//! Row 12: figures, totals and mv in all that are too large.

use super::stored::outside;
use super::{unsound, Damage, Part};
use crate::cases::{MOST_MV, MOST_STEPS, MOST_TIME};
use crate::random::Random;
use crate::stored_case::{state_word, total_word, CaseDraft};
use crate::stored_case::{
    ARRIVALS, COUNT, EXITS, LAST_OUTFLOW, LAST_RELEASE, QUEUE, REMAINDER, STEPS, TIME,
};

pub const DAMAGES: &[Damage<CaseDraft>] = &[
    unsound("N", Part::Record, |draft, place, random| {
        exceed(draft, state_word(place, COUNT), MOST_MV, random)
    }),
    unsound("w", Part::Record, |draft, place, random| {
        exceed(draft, state_word(place, QUEUE), MOST_MV, random)
    }),
    unsound("last outflow", Part::Record, |draft, place, random| {
        exceed(draft, state_word(place, LAST_OUTFLOW), MOST_MV, random)
    }),
    unsound("last release", Part::Record, |draft, place, random| {
        exceed(draft, state_word(place, LAST_RELEASE), MOST_MV, random)
    }),
    unsound("b", Part::Record, |draft, place, random| {
        let end = draft.network.segments[place].remainder_end();
        exceed(draft, state_word(place, REMAINDER), end - 1, random)
    }),
    unsound("steps", Part::File, |draft, _, random| {
        exceed(draft, total_word(draft.n(), STEPS), MOST_STEPS, random)
    }),
    unsound("arrivals", Part::File, |draft, _, random| {
        exceed(draft, total_word(draft.n(), ARRIVALS), MOST_MV, random)
    }),
    unsound("exits", Part::File, |draft, _, random| {
        exceed(draft, total_word(draft.n(), EXITS), MOST_MV, random)
    }),
    unsound("time", Part::File, |draft, _, random| {
        exceed(draft, total_word(draft.n(), TIME), MOST_TIME, random)
    }),
    unsound("N and w in all", Part::Record, |draft, place, random| {
        let two = [state_word(place, COUNT), state_word(place, QUEUE)];
        overfill(draft, two, random)
    }),
    unsound("all N in all", Part::LaterRecord, |draft, place, random| {
        let before = random.below(place as u64) as usize;
        let two = [state_word(before, COUNT), state_word(place, COUNT)];
        overfill(draft, two, random)
    }),
    unsound("all w in all", Part::LaterRecord, |draft, place, random| {
        let before = random.below(place as u64) as usize;
        let two = [state_word(place, QUEUE), state_word(before, QUEUE)];
        overfill(draft, two, random)
    }),
];

/// A word above `most`: by one, by far, or in high bits alone.
fn exceed(draft: &mut CaseDraft, word: usize, most: u64, random: &mut Random) {
    let words = &mut draft.words;
    words[word] = outside(words[word], 0, most, random);
}

/// No figure is too large, but all N and w together are: two words make up
/// the sum, all others being 0.
fn overfill(draft: &mut CaseDraft, two: [usize; 2], random: &mut Random) {
    for place in 0..draft.n() {
        draft.words[state_word(place, COUNT)] = 0;
        draft.words[state_word(place, QUEUE)] = 0;
    }
    let first = random.edge(1, MOST_MV);
    draft.words[two[0]] = first;
    draft.words[two[1]] = random.edge(MOST_MV - first + 1, MOST_MV);
}
