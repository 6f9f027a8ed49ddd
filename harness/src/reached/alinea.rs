//! What compared steps met at ALINEA ramps: how the rate moved where z divides
//! t, what was collected, and which bound that passed.

use super::lines::{self, Counts, Line, Way};
use crate::cases::{MOST_COLLECTED, MOST_SUM};
use oracle::case::{Alinea, Case, Collected, SegmentState, Setting};
use oracle::file::{Network, Segment};
use oracle::step::metering::{meter, rate_change};
use std::cmp::Ordering;

/// One ramp in a step.
struct Met {
    /// z divides t.
    turn: bool,
    /// S and m before the step, and after it.
    before: Collected,
    after: Collected,
    /// The new rate beside the old one.
    rate: Ordering,
    /// m × target × G beside S, and q, where there is a mean.
    target: Ordering,
    change: Option<i64>,
    /// R + q is below the least, or above Q.
    below: bool,
    above: bool,
}

const LINES: [Line<Met>; 4] = [
    (
        "ALINEA, m 1",
        |met| met.turn && met.before.steps == 1,
        MOVES,
    ),
    (
        "ALINEA, m above 1",
        |met| met.turn && met.before.steps > 1,
        MOVES,
    ),
    (
        "ALINEA, m 0",
        |met| met.turn && met.before.steps == 0,
        &[
            ("S 0", |met| met.before.sum == 0),
            ("S not 0", |met| met.before.sum != 0),
        ],
    ),
    (
        "ALINEA, collected",
        |_| true,
        &[
            ("not its turn", |met| !met.turn),
            ("m 60", |met| met.after.steps == MOST_COLLECTED),
            ("m 61", |met| met.after.steps > MOST_COLLECTED),
            ("S at its bound", |met| met.after.sum == MOST_SUM),
            ("S past it", |met| met.after.sum > MOST_SUM),
        ],
    ),
];

/// By a mean.
const MOVES: &[Way<Met>] = &[
    ("up", |met| met.rate.is_gt()),
    ("down", |met| met.rate.is_lt()),
    ("kept at Q", |met| met.above),
    ("kept at the least", |met| met.below),
    ("at the target", |met| met.target.is_eq()),
    ("q 0 below it", |met| met.rounded() && met.target.is_gt()),
    ("q 0 above it", |met| met.rounded() && met.target.is_lt()),
];

static COUNTS: [Counts; LINES.len()] = [const { lines::none() }; LINES.len()];

/// Counts what a step of this case meets.
pub fn note(network: &Network, case: &Case) {
    for (segment, state) in network.segments.iter().zip(&case.segments) {
        if let Setting::Alinea(alinea) = state.setting {
            let met = Met::of(segment, state, &alinea, case.steps);
            lines::count(&LINES, &COUNTS, &met);
        }
    }
}

pub fn say() -> bool {
    lines::say(&LINES, &COUNTS)
}

impl Met {
    fn of(segment: &Segment, state: &SegmentState, alinea: &Alinea, steps: u64) -> Met {
        let before = state.collected;
        let (rate, after) = meter(segment, state, steps);
        let turn = steps.is_multiple_of(alinea.interval);
        let change = (turn && before.steps > 0).then(|| rate_change(segment, alinea, before));
        let moved = state.rate as i64 + change.unwrap_or(0);
        let aim = before.steps * alinea.target * segment.lane_metres();
        Met {
            turn,
            before,
            after,
            rate: rate.cmp(&state.rate),
            target: aim.cmp(&before.sum),
            change,
            below: moved < alinea.least as i64,
            above: moved > i64::from(segment.most_released),
        }
    }

    /// The mean is off the target, but so little that q is 0.
    fn rounded(&self) -> bool {
        self.change == Some(0) && self.target.is_ne()
    }
}
