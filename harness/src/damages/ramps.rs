//! Ramps as a damage needs them, and their words spoilt.

use super::stored::outside;
use crate::random::Random;
use crate::stored_case::{state_word, CaseDraft, CODE, GAIN, INTERVAL, LEAST, RATE, TARGET};
use oracle::case::{SegmentState, Setting};
use oracle::file::Segment;

/// Gives a segment that has one before it an origin with such a setting.
pub fn set(
    draft: &mut CaseDraft,
    place: usize,
    random: &mut Random,
    setting: fn(&mut Random, &Segment, &mut SegmentState),
) {
    let segment = &mut draft.network.segments[place];
    segment.origin = true;
    segment.most_released = random.edge(1, 300_000) as u32;
    setting(random, segment, &mut draft.case.segments[place]);
    draft.put();
}

pub fn leave_open(_: &mut Random, segment: &Segment, state: &mut SegmentState) {
    state.set_meter(segment, Setting::Open);
}

/// Takes the origin away from a segment that has one before it.
pub fn close(draft: &mut CaseDraft, place: usize) {
    let segment = &mut draft.network.segments[place];
    segment.origin = false;
    segment.most_released = 0;
    draft.case.segments[place].set_meter(segment, Setting::Open);
    draft.put();
}

/// ALINEA's code and words, in range by themselves.
pub fn put_alinea(draft: &mut CaseDraft, place: usize, random: &mut Random) {
    let state = &mut draft.words[state_word(place, 0)..];
    state[CODE] = 2;
    state[TARGET] = random.edge(1, 199);
    state[GAIN] = random.edge(1, 60_000);
    state[LEAST] = random.edge(0, state[RATE]);
    state[INTERVAL] = random.edge(1, 60);
}

/// R of an open segment other than its Q.
pub fn spoil_open_rate(draft: &mut CaseDraft, place: usize, random: &mut Random) {
    let most = most_released(draft, place);
    spoil(draft, place, RATE, most, most, random);
}

/// A word of a segment's state outside `low..=high`.
pub fn spoil(
    draft: &mut CaseDraft,
    place: usize,
    word: usize,
    low: u64,
    high: u64,
    random: &mut Random,
) {
    let word = &mut draft.words[state_word(place, word)];
    *word = outside(*word, low, high, random);
}

/// Q of a segment, in mv per step.
pub fn most_released(draft: &CaseDraft, place: usize) -> u64 {
    u64::from(draft.network.segments[place].most_released)
}
