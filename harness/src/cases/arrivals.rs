//! Arrivals of a step: right ones, and such that row 13 or 15 refuses.

use super::MOST_ARRIVING;
use crate::random::Random;
use oracle::file::Network;

/// Arrivals in mv, one for each segment.
pub fn arrivals(random: &mut Random, network: &Network) -> Vec<u32> {
    let mut arriving = |origin: bool| match random.below(5) {
        _ if !origin => 0,
        0 => 0,
        1 => MOST_ARRIVING as u32,
        2 => random.between(0, MOST_ARRIVING) as u32,
        _ => random.between(0, 5_000) as u32,
    };
    let origins = network.segments.iter().map(|segment| segment.origin);
    origins.map(&mut arriving).collect()
}

/// An arrival that is too large, or that has no origin.
pub fn spoil_arrival(random: &mut Random, network: &Network, arrivals: &mut [u32]) {
    let place = random.edge(0, arrivals.len() as u64 - 1) as usize;
    let least = match network.segments[place].origin {
        true => MOST_ARRIVING + 1,
        false => 1,
    };
    arrivals[place] = random.edge(least, u64::from(u32::MAX)) as u32;
}

/// One too few, one too many, none, twice as many, or any other number.
pub fn spoil_length(random: &mut Random, arrivals: &mut Vec<u32>) {
    let n = arrivals.len();
    let length = match random.below(5) {
        0 => n - 1,
        1 => n + 1,
        2 => 0,
        3 => 2 * n,
        _ => n + random.between(1, 400) as usize,
    };
    let filler = random.one_of(&[0, 1, u64::from(u32::MAX)]);
    arrivals.resize(length, filler as u32);
}
