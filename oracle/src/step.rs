//! One step of a case.
//!
//! Whole figures are those of a sound study: at most 10¹² mv, and S at most
//! 60 × 10¹², so that every product below fits 64 bits and every figure made
//! binary64 is exact.

pub mod entering;
pub mod flows;
pub mod metering;
pub mod origin;
pub mod speed;

use crate::case::{Case, SegmentState};
use crate::network::{Followers, Network, Origin};
use entering::Entering;
use flows::Flows;
use speed::Before;

/// Takes the case one step further. `arrivals` has one figure in mv for each
/// segment.
///
/// Segments are taken in the order of their numbers. Whoever enters a segment
/// has a lower number, so that all have handed on their flows and their old
/// speeds before it is its turn. Densities are those from before the step.
pub fn step(network: &Network, case: &mut Case, arrivals: &[u32]) {
    case.time += u64::from(network.step) * (case.in_segments() + case.in_queues());
    let densities = densities(network, case);
    let mut entering = vec![Entering::default(); network.segments.len()];
    for (place, segment) in network.segments.iter().enumerate() {
        let arrival = u64::from(arrivals[place]);
        let state = &mut case.segments[place];
        let flows = Flows::of(network, place, state, arrival, case.steps);
        let before = Before {
            count: state.count,
            speed: state.speed,
            density: densities[place],
            upstream_speed: entering[place].speed(state.speed),
            density_ahead: speed::density_ahead(segment, state.count, place, &densities),
        };
        let merging = (network.origin(place) == Origin::Ramp).then_some(flows.release);
        state.speed = speed::new_speed(network, segment, state.sign, before, merging);
        settle(state, &flows, arrival, entering[place].passed_on);

        case.arrivals += arrival;
        case.exits += flows.exit_part;
        case.exits += hand_on(segment.followers, &flows, before.speed, &mut entering);
    }
    case.steps += 1;
}

/// Hands the rest of an outflow on to the followers, with the segment's speed
/// from before the step. Answers what leaves because no one follows, in mv.
fn hand_on(followers: Followers, flows: &Flows, speed: f64, entering: &mut [Entering]) -> u64 {
    let mut leaves = 0;
    for (place, part) in followers.places().into_iter().zip(flows.parts) {
        match place {
            Some(place) => entering[place].add(part, flows.outflow, speed),
            None => leaves += part,
        }
    }
    leaves
}

/// Whole figures of a segment after the step. `passed_on` is what enters it
/// from others, in mv.
fn settle(state: &mut SegmentState, flows: &Flows, arrival: u64, passed_on: u64) {
    state.rate = flows.rate;
    state.collected = flows.collected;
    state.queue = state.queue + arrival - flows.release;
    state.count = state.count + flows.release + passed_on - flows.outflow;
    state.last_outflow = flows.outflow;
    state.remainder = flows.remainder;
    state.last_release = flows.release;
}

/// ρ of each segment, in veh/km/lane.
fn densities(network: &Network, case: &Case) -> Vec<f64> {
    let segments = network.segments.iter().zip(&case.segments);
    segments
        .map(|(segment, state)| speed::density(segment, state.count))
        .collect()
}
