//! Whole figures of a step: rate, release, outflow and its parts, in mv.

use super::metering;
use super::origin;
use crate::case::{Collected, SegmentState};
use crate::network::{Followers, Network, Segment};

/// What one step makes at one segment.
pub struct Flows {
    /// R after this step's change.
    pub rate: u64,
    /// S and m after this step.
    pub collected: Collected,
    /// mv let in from the queue.
    pub release: u64,
    /// mv that leave the segment, exit part included.
    pub outflow: u64,
    /// b after this step.
    pub remainder: u64,
    /// mv of the outflow that leave by the off-ramp.
    pub exit_part: u64,
    /// mv of the rest that go to the first and to the second follower. What
    /// goes to none leaves the network.
    pub parts: [u64; 2],
}

impl Flows {
    /// The flows of the segment at that place (from 0), whose state is from
    /// before the step; `steps` is the number of steps on the line so far.
    pub fn of(
        network: &Network,
        place: usize,
        state: &SegmentState,
        arrival: u64,
        steps: u64,
    ) -> Flows {
        let segment = &network.segments[place];
        let (rate, collected) = metering::meter(segment, state, steps);
        let waiting = state.queue + arrival;
        let road = origin::bound(network, place, state);
        let (outflow, remainder) = outflow(network, segment, state);
        let exit_part = outflow * u64::from(segment.exit_share) / 1000;
        Flows {
            rate,
            collected,
            release: waiting.min(rate).min(road.unwrap_or(u64::MAX)),
            outflow,
            remainder,
            exit_part,
            parts: parts(segment.followers, outflow - exit_part),
        }
    }
}

/// Whole part of (N × s × T + b) ÷ (3600 × L), s the whole part of v, and the
/// new b, which is what that leaves. The bounds on F × T and on b keep the
/// whole part at most N.
fn outflow(network: &Network, segment: &Segment, state: &SegmentState) -> (u64, u64) {
    let metres = state.whole_speed() * u64::from(network.step);
    let sum = state.count * metres + state.remainder;
    let divisor = segment.remainder_end();
    (sum / divisor, sum % divisor)
}

/// The whole part of rest × share ÷ 1000, and what remains.
pub fn parts(followers: Followers, rest: u64) -> [u64; 2] {
    let first = rest * u64::from(followers.share) / 1000;
    [first, rest - first]
}
