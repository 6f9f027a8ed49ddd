//! ALINEA on the average: how a ramp's rate moves, and what it collects for its
//! next mean.

use crate::case::{Alinea, Collected, SegmentState, Setting};
use crate::network::Segment;

/// R, S and m after a step. The state is from before it, and `steps` is the
/// number of steps on the line so far. Only ALINEA ramps move and collect.
pub fn meter(segment: &Segment, state: &SegmentState, steps: u64) -> (u64, Collected) {
    let (mut rate, mut collected) = (state.rate, state.collected);
    let Setting::Alinea(alinea) = state.setting else {
        return (rate, collected);
    };
    if steps.is_multiple_of(alinea.interval) && collected.steps != 0 {
        rate = moved(segment, &alinea, rate, collected);
        collected = Collected::default();
    }
    collected.sum += state.count;
    collected.steps += 1;
    (rate, collected)
}

/// R + q, kept in least..Q.
fn moved(segment: &Segment, alinea: &Alinea, rate: u64, collected: Collected) -> u64 {
    let moved = rate as i64 + rate_change(segment, alinea, collected);
    let most = i64::from(segment.most_released);
    moved.clamp(alinea.least as i64, most) as u64
}

/// q = gain × (m × target × G − S) ÷ (m × G), towards zero, in mv per step; m
/// is not 0.
pub fn rate_change(segment: &Segment, alinea: &Alinea, collected: Collected) -> i64 {
    let lane_metres = (collected.steps * segment.lane_metres()) as i64;
    let missing = alinea.target as i64 * lane_metres - collected.sum as i64;
    alinea.gain as i64 * missing / lane_metres
}
