//! One case in words and speeds of its own.
//!
//! The state of each segment has 16 words; then come 8 words of totals. Of
//! both the first ones are used, those with a name. Speed i is v of segment i.
//! Everything else is garbage.

use crate::random::Random;
use crate::speeds;
use crate::words::garbage;
use oracle::case::{Case, Collected, SegmentState, Setting, Sign};
use oracle::file::Network;

/// Words of a segment's state, and words of totals.
const STATE_WORDS: usize = 16;
const TOTALS_WORDS: usize = 8;

/// Words of a segment's state: their places in it.
pub const COUNT: usize = 0;
pub const QUEUE: usize = 1;
pub const LIMIT: usize = 2;
/// Compliance + 500, 0 where dark.
pub const COMPLIANCE: usize = 3;
pub const CODE: usize = 4;
pub const RATE: usize = 5;
pub const TARGET: usize = 6;
pub const GAIN: usize = 7;
pub const LEAST: usize = 8;
pub const INTERVAL: usize = 9;
pub const LAST_OUTFLOW: usize = 10;
pub const LAST_RELEASE: usize = 11;
pub const SUM: usize = 12;
pub const SUM_STEPS: usize = 13;
pub const REMAINDER: usize = 14;
/// Totals: their places after the last state.
pub const STEPS: usize = 0;
pub const ARRIVALS: usize = 1;
pub const EXITS: usize = 2;
pub const TIME: usize = 3;

/// Names of the words that are used, in order.
const STATE_NAMES: &[&str] = &[
    "N",
    "w",
    "limit",
    "compliance",
    "setting code",
    "R",
    "target",
    "gain",
    "least",
    "z",
    "last outflow",
    "last release",
    "S",
    "m",
    "b",
];
const TOTAL_NAMES: &[&str] = &["steps", "arrivals", "exits", "time"];

/// A sound case of a network that a test is about to damage.
pub struct CaseDraft {
    /// Network and case before the damage.
    pub network: Network,
    pub case: Case,
    pub words: Vec<u64>,
    pub speeds: Vec<f64>,
}

impl CaseDraft {
    pub fn new(network: Network, case: Case, random: &mut Random) -> CaseDraft {
        let n = network.segments.len();
        let mut draft = CaseDraft {
            network,
            case,
            words: garbage(random, words_for(n)),
            speeds: speeds::unread(random, n),
        };
        draft.put();
        draft
    }

    /// Number of segments.
    pub fn n(&self) -> usize {
        self.case.segments.len()
    }

    /// Puts the case into its words and speeds; the free words stay.
    pub fn put(&mut self) {
        put_case(&self.case, &mut self.words, &mut self.speeds);
    }
}

/// Puts the case into its words and speeds; other words and speeds stay.
pub fn put_case(case: &Case, words: &mut [u64], speeds: &mut [f64]) {
    for (place, state) in case.segments.iter().enumerate() {
        let state_words = state_words(state);
        words[state_word(place, 0)..][..state_words.len()].copy_from_slice(&state_words);
        speeds[place] = state.speed;
    }
    let totals: [u64; TOTAL_NAMES.len()] = [case.steps, case.arrivals, case.exits, case.time];
    words[total_word(case.segments.len(), 0)..][..totals.len()].copy_from_slice(&totals);
}

/// The place of a word of the state of a segment (from 0).
pub fn state_word(place: usize, word: usize) -> usize {
    STATE_WORDS * place + word
}

/// The place of a total of a case of n segments.
pub fn total_word(n: usize, total: usize) -> usize {
    STATE_WORDS * n + total
}

/// Words of a case of n segments.
pub fn words_for(n: usize) -> usize {
    STATE_WORDS * n + TOTALS_WORDS
}

/// What a word of a case of n segments is, for a reader. Segments count from
/// 1.
pub fn word_name(n: usize, at: usize) -> String {
    let (place, word) = (at / STATE_WORDS, at % STATE_WORDS);
    let names = if place < n { STATE_NAMES } else { TOTAL_NAMES };
    let name = names.get(word).unwrap_or(&"a free word");
    match place < n {
        true => format!("{name} of segment {}", place + 1),
        false => name.to_string(),
    }
}

fn state_words(state: &SegmentState) -> [u64; STATE_NAMES.len()] {
    let [limit, compliance] = match state.sign {
        Sign::Dark => [0, 0],
        Sign::Shown { limit, compliance } => [limit, (500 + compliance) as u64],
    };
    let (code, [target, gain, least, interval]) = match state.setting {
        Setting::Open => (0, [0; 4]),
        Setting::Fixed(_) => (1, [0; 4]),
        Setting::Alinea(ramp) => (2, [ramp.target, ramp.gain, ramp.least, ramp.interval]),
    };
    let Collected { sum, steps } = state.collected;
    [
        state.count,
        state.queue,
        limit,
        compliance,
        code,
        state.rate,
        target,
        gain,
        least,
        interval,
        state.last_outflow,
        state.last_release,
        sum,
        steps,
        state.remainder,
    ]
}
