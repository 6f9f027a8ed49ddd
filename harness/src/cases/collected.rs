//! What ALINEA ramps have collected: S and m.

use super::{MOST_COLLECTED, MOST_MV, MOST_SUM};
use crate::random::Random;
use oracle::case::{Alinea, Case, Collected, SegmentState, Setting};
use oracle::file::{Network, Segment};

/// S and m of every ALINEA ramp, mostly such that many steps can follow. In one
/// case of four the first of them is as only a study written by hand has it.
pub fn collect(random: &mut Random, network: &Network, case: &mut Case) {
    let mut by_hand = random.once_in(4);
    let steps = case.steps;
    for (state, segment) in case.segments.iter_mut().zip(&network.segments) {
        let Setting::Alinea(alinea) = state.setting else {
            continue;
        };
        let most = most_on_a_line(&alinea, steps);
        state.collected = within(random, segment, &alinea, most);
        if by_hand {
            put_by_hand(random, state);
            by_hand = false;
        }
    }
}

/// As many steps as a line can have collected by then. Where z divides t it may
/// be all, since they are cleared at once.
fn most_on_a_line(alinea: &Alinea, steps: u64) -> u64 {
    match steps % alinea.interval {
        0 => MOST_COLLECTED,
        since => since,
    }
}

/// Up to so many steps: none, one, all, or some.
fn within(random: &mut Random, segment: &Segment, alinea: &Alinea, most: u64) -> Collected {
    let steps = match random.below(4) {
        0 => 0,
        1 => 1,
        2 => most,
        _ => random.between(0, most),
    };
    let metres = steps * segment.lane_metres();
    let sum = match random.below(4) {
        _ if steps == 0 => 0,
        0 | 1 => near_target(random, metres, alinea),
        2 => random.between(0, 200 * metres),
        _ => random.edge(0, steps * MOST_MV),
    };
    Collected { sum, steps }
}

/// S in mv so near the target that q is 0 or little more, on either side.
fn near_target(random: &mut Random, metres: u64, alinea: &Alinea) -> u64 {
    let aim = alinea.target * metres;
    let off = random.edge(0, 3 * metres / alinea.gain + 1);
    match random.once_in(2) {
        true => aim + off,
        false => aim.saturating_sub(off),
    }
}

/// As many steps as there may be, a sum that this step brings to its end or
/// past it, a sum of no steps, or any.
fn put_by_hand(random: &mut Random, state: &mut SegmentState) {
    let Collected { sum, steps } = &mut state.collected;
    match random.below(4) {
        0 => *steps = MOST_COLLECTED,
        1 => *sum = MOST_SUM - random.edge(0, state.count),
        2 => (*sum, *steps) = (random.edge(1, MOST_SUM), 0),
        _ => {
            *sum = random.edge(0, MOST_SUM);
            *steps = random.edge(0, MOST_COLLECTED);
        }
    }
}
