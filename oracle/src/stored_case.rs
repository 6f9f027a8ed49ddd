//! One case as it is stored in lent words and speeds.
//!
//! Each segment's state has sixteen words; after the states come the case's
//! totals: steps, arrivals, exits, time and four free words. Speed i (from 0)
//! is v of segment i. Every function is handed exactly the case's own words
//! and speeds.

mod state;

use crate::book::rows::LINE_STEPS;
use crate::case::{Case, SegmentState};
use crate::network::Network;

const STATE_WORDS: usize = 16;
const TOTALS_WORDS: usize = 8;
/// Most mv that any figure of a sound case says, and most mv in all.
const MOST_MV: u64 = 1_000_000_000_000;
/// Most steps that an ALINEA ramp has collected in a sound case.
const MOST_COLLECTED: u64 = 60;
/// Most time spent of a sound case, in mv·s.
const MOST_TIME: u64 = 1_000_000_000_000_000_000;

/// Words of a case of n segments.
pub(crate) fn case_words(n: usize) -> usize {
    STATE_WORDS * n + TOTALS_WORDS
}

/// The case, or nothing where it is not sound.
pub(crate) fn read(network: &Network, words: &[u64], speeds: &[f64]) -> Option<Case> {
    let states: Option<Vec<SegmentState>> = states(network, words, speeds).collect();
    let [steps, arrivals, exits, time] = totals(words);
    let case = Case {
        segments: states?,
        steps,
        arrivals,
        exits,
        time,
    };
    let present = case.in_segments() + case.in_queues();
    totals_sound(totals(words), present).then_some(case)
}

/// Whether the case is sound. Nothing of it is kept.
pub(crate) fn sound(network: &Network, words: &[u64], speeds: &[f64]) -> bool {
    let mut states = states(network, words, speeds);
    let present = states.try_fold(0, |present, state| {
        let SegmentState { count, queue, .. } = state?;
        Some(present + count + queue)
    });
    present.is_some_and(|present| totals_sound(totals(words), present))
}

/// Puts what a step changes: counts, queues, rates, last flows, S, m and b,
/// speeds and totals.
pub(crate) fn put_step(case: &Case, words: &mut [u64], speeds: &mut [f64]) {
    for (place, state) in case.segments.iter().enumerate() {
        state::put_step(state, &mut words[STATE_WORDS * place..]);
        speeds[place] = state.speed;
    }
    put_totals(case, words);
}

/// Puts the whole case; its free words become 0.
pub(crate) fn put(case: &Case, words: &mut [u64], speeds: &mut [f64]) {
    words.fill(0);
    for place in 0..case.segments.len() {
        put_sign(case, place, words);
        put_setting(case, place, words);
    }
    put_step(case, words, speeds);
}

/// Puts the sign of a segment (from 0).
pub(crate) fn put_sign(case: &Case, place: usize, words: &mut [u64]) {
    let words = &mut words[STATE_WORDS * place..];
    state::put_sign(case.segments[place].sign, words);
}

/// Puts the setting, the rate, S and m of a segment (from 0).
pub(crate) fn put_setting(case: &Case, place: usize, words: &mut [u64]) {
    state::put_setting(&case.segments[place], &mut words[STATE_WORDS * place..]);
}

/// The state of each segment, or nothing where it is not sound.
fn states<'a>(
    network: &'a Network,
    words: &'a [u64],
    speeds: &'a [f64],
) -> impl Iterator<Item = Option<SegmentState>> + 'a {
    let stored = words.chunks_exact(STATE_WORDS).zip(speeds);
    let places = 0..network.segments.len();
    places
        .zip(stored)
        .map(|(place, (words, &speed))| state::read(network, place, words, speed))
}

fn totals(words: &[u64]) -> [u64; 4] {
    let at = words.len() - TOTALS_WORDS;
    std::array::from_fn(|total| words[at + total])
}

fn put_totals(case: &Case, words: &mut [u64]) {
    let totals = [case.steps, case.arrivals, case.exits, case.time];
    let at = words.len() - TOTALS_WORDS;
    words[at..at + totals.len()].copy_from_slice(&totals);
}

/// Bounds on the totals and on the mv in all. Each count and queue is within
/// its own bound already, so that their sum fits 64 bits.
fn totals_sound([steps, arrivals, exits, time]: [u64; 4], present: u64) -> bool {
    present <= MOST_MV
        && arrivals <= MOST_MV
        && exits <= MOST_MV
        && time <= MOST_TIME
        && steps <= LINE_STEPS
}
