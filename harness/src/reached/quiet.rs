//! What compared quiet steps met: how far P fell beyond all outflows, and
//! whether the fullest segment was fuller after the step.

use super::lines::{self, Counts, Line};
use std::cmp::Ordering;

struct Met {
    /// mv by which P fell beyond the outflows.
    beyond: u64,
    /// The greatest K that a segment is at, after the step beside before it.
    fullest: Ordering,
}

const LINES: [Line<Met>; 2] = [
    (
        "quiet steps, P fell",
        |_| true,
        &[
            ("by the outflows", |met| met.beyond == 0),
            ("by more", |met| met.beyond > 0),
        ],
    ),
    (
        "fullest segment",
        |_| true,
        &[
            ("less full", |met| met.fullest.is_lt()),
            ("as full", |met| met.fullest.is_eq()),
            ("fuller", |met| met.fullest.is_gt()),
        ],
    ),
];

static COUNTS: [Counts; LINES.len()] = [const { lines::none() }; LINES.len()];

/// Counts one step.
pub fn note(beyond: u64, before: u64, after: u64) {
    let fullest = after.cmp(&before);
    lines::count(&LINES, &COUNTS, &Met { beyond, fullest });
}

pub fn say() -> bool {
    lines::say(&LINES, &COUNTS)
}
