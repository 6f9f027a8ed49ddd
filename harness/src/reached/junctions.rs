//! What compared steps met where freeways part and meet.

mod met;

use super::lines::{self, Counts, Line};
use met::Met;
use oracle::case::Case;
use oracle::file::Network;
use oracle::step::flows::Flows;

/// Each is about all that is met.
const LINES: [Line<Met>; 6] = [
    (
        "version 2, networks",
        |_| true,
        &[
            ("chains", |met| met.is_on(|roads| roads.chain)),
            ("two ends", |met| met.is_on(|roads| roads.ends == 2)),
            ("more ends", |met| met.is_on(|roads| roads.ends > 2)),
            ("two mainstream origins", |met| {
                met.is_on(|roads| roads.origins == 2)
            }),
            ("more mainstream origins", |met| {
                met.is_on(|roads| roads.origins > 2)
            }),
        ],
    ),
    (
        "segments that enter",
        |_| true,
        &[
            ("none", |met| met.entering.is_empty()),
            ("one", |met| met.entering.len() == 1),
            ("two", |met| met.entering.len() == 2),
            ("three", |met| met.entering.len() == 3),
            ("four", |met| met.entering.len() == 4),
            ("five", |met| met.entering.len() == 5),
            ("more", |met| met.entering.len() > 5),
        ],
    ),
    (
        "several enter",
        |_| true,
        &[
            ("no outflow", |met| met.several() && met.outflow() == 0),
            ("some without outflow", |met| {
                met.several() && met.outflow() > 0 && met.entering.iter().any(|of| of.0 == 0)
            }),
            ("all with outflow", |met| {
                met.several() && met.entering.iter().all(|of| of.0 > 0)
            }),
        ],
    ),
    (
        "shares that enter",
        |_| true,
        &[
            ("0", |met| met.enters_with(|share| share == 0)),
            ("between", |met| {
                met.enters_with(|share| (1..1000).contains(&share))
            }),
            ("1000 of two", |met| met.enters_with(|share| share == 1000)),
        ],
    ),
    (
        "followers",
        |_| true,
        &[
            ("none", |met| met.ahead.is_empty()),
            ("one", |met| met.ahead.len() == 1),
            ("two", |met| met.ahead.len() == 2),
            ("a part rounded", |met| met.rounded),
        ],
    ),
    (
        "two followers",
        |_| true,
        &[
            ("both empty", |met| met.empty_ahead() == Some(2)),
            ("one empty", |met| met.empty_ahead() == Some(1)),
            ("none empty", |met| met.empty_ahead() == Some(0)),
        ],
    ),
];

static COUNTS: [Counts; LINES.len()] = [const { lines::none() }; LINES.len()];

/// Counts what a step of this case with these arrivals meets.
pub fn note(network: &Network, case: &Case, arrivals: &[u32]) {
    let n = network.segments.len();
    let flows: Vec<Flows> = (0..n)
        .map(|place| {
            let arrival = u64::from(arrivals[place]);
            Flows::of(network, place, &case.segments[place], arrival, case.steps)
        })
        .collect();
    for place in 0..n {
        let met = Met::of(network, case, &flows, place);
        lines::count(&LINES, &COUNTS, &met);
    }
}

/// Prints the lines. Answers whether everything in them came up.
pub fn say() -> bool {
    lines::say(&LINES, &COUNTS)
}
