//! What compared steps met at a ramp: how N stood to J × G, and how the jam
//! bound came out below it.

use super::lines::{self, Counts, Line};
use oracle::case::Case;
use oracle::file::{Network, Segment};
use oracle::network::Origin;
use std::cmp::Ordering;

struct Met {
    /// N beside J × G.
    count: Ordering,
    /// Q × (J × G − N), 0 from N = J × G on, and (J − C) × G.
    divided: u64,
    by: u64,
}

const LINES: [Line<Met>; 2] = [
    (
        "ramps, N",
        |_| true,
        &[
            ("below J × G", |met| met.count.is_lt()),
            ("at it", |met| met.count.is_eq()),
            ("above it", |met| met.count.is_gt()),
        ],
    ),
    (
        "jam bound, N below",
        |met| met.count.is_lt(),
        &[
            ("0", |met| met.divided < met.by),
            ("exact", |met| met.divided.is_multiple_of(met.by)),
            ("rounded down", |met| {
                met.divided > met.by && !met.divided.is_multiple_of(met.by)
            }),
        ],
    ),
];

static COUNTS: [Counts; LINES.len()] = [const { lines::none() }; LINES.len()];

/// Counts what a step of this case meets.
pub fn note(network: &Network, case: &Case) {
    let both = network.segments.iter().zip(&case.segments);
    for (place, (segment, state)) in both.enumerate() {
        if network.origin(place) == Origin::Ramp {
            lines::count(&LINES, &COUNTS, &Met::of(segment, state.count));
        }
    }
}

pub fn say() -> bool {
    lines::say(&LINES, &COUNTS)
}

impl Met {
    fn of(segment: &Segment, count: u64) -> Met {
        let full = u64::from(segment.jam) * segment.lane_metres();
        Met {
            count: count.cmp(&full),
            divided: u64::from(segment.most_released) * full.saturating_sub(count),
            by: u64::from(segment.jam - segment.critical) * segment.lane_metres(),
        }
    }
}
