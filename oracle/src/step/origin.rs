//! What the road lets in at an origin, beside what waits there and the rate:
//! at a ramp by the room in the segment, on the mainstream by its speed.

use crate::case::SegmentState;
use crate::network::{Curve, Network, Origin, Segment};

/// Most mv that the road lets in at a place (from 0) in this step, or nothing
/// where it does not bound them. The state is from before the step.
pub fn bound(network: &Network, place: usize, state: &SegmentState) -> Option<u64> {
    let segment = &network.segments[place];
    match network.origin(place) {
        Origin::None => Some(0),
        Origin::Mainstream => speed_bound(network, segment, limiting_speed(state)),
        Origin::Ramp => Some(jam_bound(segment, state.count)),
    }
}

/// The whole part of Q × (J × G − N) ÷ ((J − C) × G), or 0 from N = J × G on.
pub fn jam_bound(segment: &Segment, count: u64) -> u64 {
    let lane_metres = segment.lane_metres();
    let full = u64::from(segment.jam) * lane_metres;
    if count >= full {
        return 0;
    }
    let between = u64::from(segment.jam - segment.critical) * lane_metres;
    u64::from(segment.most_released) * (full - count) / between
}

/// The whole part of H × y × g × T ÷ 3600 where y, in m/h, is below the curve's
/// entry at C; else there is no bound.
pub fn speed_bound(network: &Network, segment: &Segment, y: u64) -> Option<u64> {
    let curve = network.curve(segment);
    if y >= u64::from(curve[usize::from(segment.critical)]) {
        return None;
    }
    let g = greatest_density(curve, segment.jam, y);
    Some(u64::from(segment.lanes) * y * g * u64::from(network.step) / 3600)
}

/// g: the greatest density up to J whose entry is at least y, which is at most
/// F. Entries are looked at one by one from J down.
pub fn greatest_density(curve: &Curve, jam: u8, y: u64) -> u64 {
    let mut down = (0..=jam).rev();
    let found = down.find(|&density| u64::from(curve[usize::from(density)]) >= y);
    u64::from(found.expect("the first entry is F"))
}

/// y: the lesser of s and the speed of a shown sign, in m/h.
pub fn limiting_speed(state: &SegmentState) -> u64 {
    let s = state.whole_speed();
    state.sign.speed().map_or(s, |shown| s.min(shown))
}
