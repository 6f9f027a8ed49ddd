//! Valid networks of both versions over the whole range of every field.

mod curves;
mod roads;

use crate::bounds::least_length;
use crate::random::Random;
use oracle::file::{Curve, Followers, Network, Segment};
pub use roads::Roads;

/// Shortest and longest segment, in metres.
pub const SHORTEST: u64 = 100;
pub const LONGEST: u64 = 2000;
/// Lowest and highest first entry of a curve, in m/h.
pub const SLOWEST: u64 = 1_000;
pub const FASTEST: u64 = 200_000;
/// Shares at and beside the ends, in thousandths.
const TELLING_SHARES: [u64; 4] = [0, 1, 999, 1000];

/// What a test needs of a generated network.
#[derive(Clone, Copy)]
pub struct Shape {
    pub least_segments: u64,
    /// Every curve is so fast that some permitted length is too short for it.
    pub binding: bool,
    pub roads: Roads,
}

/// No needs: every valid network.
pub const ANY: Shape = Shape {
    least_segments: 1,
    binding: false,
    roads: Roads::Any,
};

impl Shape {
    /// What both need. Not both need other roads than any.
    pub fn with(self, other: Shape) -> Shape {
        Shape {
            least_segments: self.least_segments.max(other.least_segments),
            binding: self.binding || other.binding,
            roads: match self.roads {
                Roads::Any => other.roads,
                roads => roads,
            },
        }
    }
}

/// A valid network of that shape.
pub fn network(random: &mut Random, shape: Shape) -> Network {
    let step = random.edge(if shape.binding { 2 } else { 1 }, 60);
    let segments = random.edge(shape.least_segments, 40);
    built(random, step, segments, shape)
}

/// A valid network of n segments for steps: the shares that round most
/// tellingly come up often.
pub fn road(random: &mut Random, segments: u64) -> Network {
    let step = random.edge(1, 60);
    let mut network = built(random, step, segments, ANY);
    for segment in &mut network.segments {
        if segment.followers != Followers::NONE && random.once_in(2) {
            segment.exit_share = random.one_of(&TELLING_SHARES) as u16;
        }
        if segment.followers.second != 0 && random.once_in(3) {
            segment.followers.share = random.one_of(&TELLING_SHARES) as u16;
        }
    }
    network
}

/// The same with head fields such that speeds change little in a step, so
/// that most of them stay clear of 1,000 and F.
pub fn calm_road(random: &mut Random, segments: u64) -> Network {
    let mut network = road(random, segments);
    network.step = network.step.min(random.between(1, 15) as u8);
    network.relaxation = random.between(15, 60) as u8;
    network.anticipation = network.anticipation.min(random.edge(0, 60) as u8);
    network.kappa = network.kappa.max(20);
    network
}

/// Leaves a segment past the first (from 0) with neither a segment before it
/// nor an origin. All else stays valid.
pub fn cut_off(network: &mut Network, place: usize) {
    let segments = &mut network.segments;
    let mut followers: Vec<Followers> = segments.iter().map(|each| each.followers).collect();
    roads::leave(&mut followers, place);
    for (segment, followers) in segments.iter_mut().zip(followers) {
        segment.followers = followers;
        if followers == Followers::NONE {
            segment.exit_share = 0;
        }
    }
    segments[place].origin = false;
    segments[place].most_released = 0;
}

/// T in seconds, n, and what else the network needs.
fn built(random: &mut Random, step: u64, segments: u64, shape: Shape) -> Network {
    let Shape { binding, roads, .. } = shape;
    let curves = curves::drawn(random, step, binding);
    let (version, followers) = roads::drawn(random, segments, roads);
    let segments = (0..segments as usize)
        .map(|place| segment(random, step, &curves, &followers, place))
        .collect();
    Network {
        version,
        step: step as u8,
        relaxation: random.edge(1, 120) as u8,
        anticipation: random.edge(0, 200) as u8,
        kappa: random.edge(1, 200) as u8,
        merging: random.edge(0, 1000) as u16,
        curves,
        segments,
    }
}

/// The segment at that place (from 0), where each segment has its followers.
fn segment(
    random: &mut Random,
    step: u64,
    curves: &[Curve],
    followers: &[Followers],
    place: usize,
) -> Segment {
    let (curve, shortest) = suitable_curve(random, step, curves);
    let jam = random.edge(2, 200);
    let origin = !roads::entered(followers, place) || random.once_in(2);
    let exit_share = match followers[place] {
        Followers::NONE => 0,
        _ => random.edge(0, 1000),
    };
    Segment {
        length: random.edge(shortest, LONGEST) as u16,
        lanes: random.edge(1, 8) as u8,
        curve: curve as u8,
        critical: random.edge(1, jam - 1) as u8,
        jam: jam as u8,
        origin,
        exit_share: exit_share as u16,
        most_released: if origin {
            random.edge(1, 300_000) as u32
        } else {
            0
        },
        followers: followers[place],
    }
}

/// A curve that some length suits, and the shortest such length in metres.
fn suitable_curve(random: &mut Random, step: u64, curves: &[Curve]) -> (u64, u64) {
    loop {
        let curve = random.edge(0, curves.len() as u64 - 1);
        let shortest = least_length(u64::from(curves[curve as usize][0]), step);
        if shortest <= LONGEST {
            return (curve, shortest.max(SHORTEST));
        }
    }
}
