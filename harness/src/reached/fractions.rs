//! What compared steps met of remainders: whether b adds one mv to an outflow,
//! and what is left of it.

use super::lines::{self, Counts, Line};
use oracle::case::{Case, SegmentState};
use oracle::file::{Network, Segment};

struct Met {
    /// b before the step, and the first number that it may not be.
    before: u64,
    end: u64,
    /// What N × s × T alone leaves.
    left: u64,
}

const LINES: [Line<Met>; 2] = [
    (
        "b before a step",
        |_| true,
        &[
            ("0", |met| met.before == 0),
            ("amid", |met| met.before > 0 && met.before + 1 < met.end),
            ("greatest", |met| met.before + 1 == met.end),
        ],
    ),
    (
        "b not 0",
        |met| met.before > 0,
        &[
            ("adds none", |met| met.sum() < met.end),
            ("adds one, leaves 0", |met| met.sum() == met.end),
            ("adds one, leaves some", |met| met.sum() > met.end),
        ],
    ),
];

static COUNTS: [Counts; LINES.len()] = [const { lines::none() }; LINES.len()];

/// Counts what a step of this case meets.
pub fn note(network: &Network, case: &Case) {
    for (segment, state) in network.segments.iter().zip(&case.segments) {
        lines::count(&LINES, &COUNTS, &Met::of(network, segment, state));
    }
}

pub fn say() -> bool {
    lines::say(&LINES, &COUNTS)
}

impl Met {
    fn of(network: &Network, segment: &Segment, state: &SegmentState) -> Met {
        let end = segment.remainder_end();
        let product = state.count * state.whole_speed() * u64::from(network.step);
        Met {
            before: state.remainder,
            end,
            left: product % end,
        }
    }

    fn sum(&self) -> u64 {
        self.before + self.left
    }
}
