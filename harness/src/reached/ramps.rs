//! What compared calls about a ramp met: where there was none, and what there
//! was to drain.

use super::lines::{self, Counts, Line, Way};
use crate::calls::{Call, Question};
use crate::stored_case::{state_word, QUEUE, RATE};
use crate::study::case_word;
use crate::words::field_word;

/// No ramp.
const REFUSED: u64 = 19;
/// The field of a stored record that says whether it has an origin.
const ORIGIN: usize = 5;

/// A segment without a ramp.
struct NoRamp {
    segment: u64,
    origin: bool,
    /// It was to be metered; else to be drained.
    metered: bool,
}

const NO_RAMP: [Line<NoRamp>; 2] = [
    ("meter refused by 19", |met| met.metered, PLACES),
    ("drain refused by 19", |met| !met.metered, PLACES),
];

const PLACES: &[Way<NoRamp>] = &[
    ("segment 1", |met| met.segment == 1),
    ("no origin", |met| met.segment > 1 && !met.origin),
    ("mainstream origin past segment 1", |met| {
        met.segment > 1 && met.origin
    }),
];

/// w and R of a ramp.
type Drained = (u64, u64);

const DRAINS: [Line<Drained>; 2] = [
    (
        "drains, R 0",
        |&(_, rate)| rate == 0,
        &[
            ("no queue", |&(queue, _)| queue == 0),
            ("a queue", |&(queue, _)| queue > 0),
        ],
    ),
    (
        "drains, R not 0",
        |&(_, rate)| rate > 0,
        &[
            ("no queue", |&(queue, _)| queue == 0),
            ("w below R", |&(queue, rate)| 0 < queue && queue < rate),
            ("w is R", |&(queue, rate)| queue == rate),
            ("a multiple of R", |&(queue, rate)| {
                queue > rate && queue.is_multiple_of(rate)
            }),
            ("no multiple", |&(queue, rate)| {
                queue > rate && !queue.is_multiple_of(rate)
            }),
        ],
    ),
];

static WITHOUT: [Counts; NO_RAMP.len()] = [const { lines::none() }; NO_RAMP.len()];
static DRAINED: [Counts; DRAINS.len()] = [const { lines::none() }; DRAINS.len()];

/// Counts what a call with this answer met on the study in these words.
pub fn note(words: &[u64], call: &Call, number: u64) {
    let (drained, segment) = match *call {
        Call::Meter { segment, .. } => (None, segment),
        Call::Question {
            case,
            question: Question::Drain(segment),
            ..
        } => (Some(case), segment),
        _ => return,
    };
    let place = (segment as usize).wrapping_sub(1);
    match (drained, number) {
        (_, REFUSED) => {
            let met = NoRamp {
                segment,
                origin: words[field_word(place, ORIGIN)] == 1,
                metered: drained.is_none(),
            };
            lines::count(&NO_RAMP, &WITHOUT, &met);
        }
        (Some(case), 0) => {
            let n = words[1] as usize;
            let state = &words[case_word(n, case as usize) + state_word(place, 0)..];
            lines::count(&DRAINS, &DRAINED, &(state[QUEUE], state[RATE]));
        }
        _ => {}
    }
}

/// Prints the lines. Answers whether everything in them came up.
pub fn say() -> bool {
    lines::say(&NO_RAMP, &WITHOUT) & lines::say(&DRAINS, &DRAINED)
}
