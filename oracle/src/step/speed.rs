//! The speed of a step, in binary64. Whole products are formed exactly and
//! then converted; each operation rounds once, grouped as the paper brackets.

use crate::case::Sign;
use crate::network::{Curve, Network, Segment};

/// Lowest speed of a segment, in m/h.
const LEAST_SPEED: f64 = 1_000.0;

/// A segment and its neighbours before the step.
#[derive(Clone, Copy)]
pub struct Before {
    /// N, in mv.
    pub count: u64,
    /// v, in m/h.
    pub speed: f64,
    /// ρ, in veh/km/lane.
    pub density: f64,
    /// u: v of what enters from the segments before, in m/h.
    pub upstream_speed: f64,
    /// ρ': density of what follows, in veh/km/lane.
    pub density_ahead: f64,
}

/// v after the step, in m/h. `merging` is this step's release in mv at an
/// on-ramp.
pub fn new_speed(
    network: &Network,
    segment: &Segment,
    sign: Sign,
    before: Before,
    merging: Option<u64>,
) -> f64 {
    let v = before.speed;
    let curve = network.curve(segment);
    let desired = desired_speed(curve, segment.lane_metres(), before.count, sign);
    let step = u64::from(network.step);
    let relaxation = u64::from(network.relaxation);
    let length = u64::from(segment.length);
    let crowding = before.density + f64::from(network.kappa);

    let a = (whole(step) / whole(relaxation)) * (desired - v);
    let b = ((whole(step) / whole(3600 * length)) * v) * (before.upstream_speed - v);
    let anticipation = whole(u64::from(network.anticipation) * 1_000_000 * step);
    let ahead = before.density_ahead - before.density;
    let d = ((anticipation / whole(relaxation * length)) * ahead) / crowding;
    let mut speed = ((v + a) + b) - d;
    if let Some(release) = merging {
        let merged = whole(u64::from(network.merging) * release);
        let e = ((merged / whole(1000 * segment.lane_metres())) * v) / crowding;
        speed -= e;
    }
    kept_in_range(speed, f64::from(curve[0]))
}

/// V: the speed that drivers aim at, by the curve and by the sign, in m/h.
pub fn desired_speed(curve: &Curve, lane_metres: u64, count: u64, sign: Sign) -> f64 {
    let by_curve = curve_speed(curve, lane_metres, count);
    match sign.speed() {
        None => by_curve,
        Some(shown) => by_curve.min(whole(shown)),
    }
}

/// The curve at density N ÷ G, in a straight line from entry to entry, in m/h.
pub fn curve_speed(curve: &Curve, lane_metres: u64, count: u64) -> f64 {
    let place = count / lane_metres;
    if place >= 200 {
        return f64::from(curve[200]);
    }
    let entry = curve[place as usize];
    let fall = u64::from(entry - curve[place as usize + 1]);
    f64::from(entry) - whole(fall * (count % lane_metres)) / whole(lane_metres)
}

/// ρ = N ÷ G, in veh/km/lane.
pub fn density(segment: &Segment, count: u64) -> f64 {
    whole(count) / whole(segment.lane_metres())
}

/// ρ' of the segment at that place (from 0), where each segment has its
/// density, in veh/km/lane.
pub fn density_ahead(segment: &Segment, count: u64, place: usize, densities: &[f64]) -> f64 {
    match segment.followers.places() {
        [Some(first), Some(second)] => density_of_two(densities[first], densities[second]),
        [Some(only), None] | [None, Some(only)] => densities[only],
        [None, None] => density_past_end(segment, count, densities[place]),
    }
}

/// The sum of ρ² over the sum of ρ, first plus second, or 0 if that sum is 0.
pub fn density_of_two(first: f64, second: f64) -> f64 {
    let sum = first + second;
    if sum == 0.0 {
        return 0.0;
    }
    (first * first + second * second) / sum
}

/// ρ' of a segment that no one follows: its own density, but at most the
/// critical one.
pub fn density_past_end(segment: &Segment, count: u64, density: f64) -> f64 {
    if count < u64::from(segment.critical) * segment.lane_metres() {
        density
    } else {
        f64::from(segment.critical)
    }
}

/// Stands in 1,000..F, is F above it, otherwise 1,000.
fn kept_in_range(speed: f64, free_speed: f64) -> f64 {
    if (LEAST_SPEED..=free_speed).contains(&speed) {
        speed
    } else if speed > free_speed {
        free_speed
    } else {
        LEAST_SPEED
    }
}

/// A whole figure made binary64. All are below 2⁵³, so that this is exact.
fn whole(number: u64) -> f64 {
    number as f64
}
