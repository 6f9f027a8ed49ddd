//! What compared steps met at a mainstream origin: how y stood to the curve's
//! entry at C, whether its bound was the least, and which density g was.

use super::lines::{self, Counts, Line, Way};
use oracle::case::{Case, SegmentState};
use oracle::file::{Network, Segment};
use oracle::network::Origin;
use oracle::step::origin::{greatest_density, limiting_speed, speed_bound};
use std::cmp::Ordering;

struct Met {
    /// y is the speed of a sign, and not s.
    by_sign: bool,
    /// y beside the entry at C.
    y: Ordering,
    /// The bound by speed is below both w + d and Q.
    least: bool,
    /// g beside C and beside J.
    g: (Ordering, Ordering),
    /// The entries at g and before it are y.
    level: bool,
}

const BOUNDS: &[Way<Met>] = &[
    ("least", |met| met.least),
    ("not least", |met| met.y.is_lt() && !met.least),
    ("none at the entry at C", |met| met.y.is_eq()),
    ("none above it", |met| met.y.is_gt()),
];

const DENSITIES: &[Way<Met>] = &[
    ("C", |met| met.g.0.is_eq()),
    ("between", |met| met.g.0.is_gt() && met.g.1.is_lt()),
    ("J", |met| met.g.1.is_eq()),
    ("several entries are y", |met| met.level),
];

const LINES: [Line<Met>; 3] = [
    ("mainstream, y by s", |met| !met.by_sign, BOUNDS),
    ("mainstream, y by sign", |met| met.by_sign, BOUNDS),
    ("mainstream, g", |met| met.y.is_lt(), DENSITIES),
];

static COUNTS: [Counts; LINES.len()] = [const { lines::none() }; LINES.len()];

/// Counts what a step of this case with these arrivals meets.
pub fn note(network: &Network, case: &Case, arrivals: &[u32]) {
    let places = case.segments.iter().zip(arrivals).enumerate();
    for (place, (state, &arrival)) in places {
        if network.origin(place) == Origin::Mainstream {
            let waiting = state.queue + u64::from(arrival);
            let met = Met::of(network, &network.segments[place], state, waiting);
            lines::count(&LINES, &COUNTS, &met);
        }
    }
}

pub fn say() -> bool {
    lines::say(&LINES, &COUNTS)
}

impl Met {
    fn of(network: &Network, segment: &Segment, state: &SegmentState, waiting: u64) -> Met {
        let curve = network.curve(segment);
        let y = limiting_speed(state);
        let g = greatest_density(curve, segment.jam, y);
        let least = waiting.min(u64::from(segment.most_released));
        let entry = |density: u64| u64::from(curve[density as usize]);
        Met {
            by_sign: y < state.whole_speed(),
            y: y.cmp(&entry(u64::from(segment.critical))),
            least: speed_bound(network, segment, y).is_some_and(|bound| bound < least),
            g: (
                g.cmp(&u64::from(segment.critical)),
                g.cmp(&u64::from(segment.jam)),
            ),
            level: g > 0 && entry(g) == y && entry(g - 1) == y,
        }
    }
}
