//! How a road empties over quiet steps, in which nothing arrives and no queue
//! is left.

use crate::case::Case;
use crate::network::Network;

/// For each segment the number of segments on its longest way out, itself
/// included. Whoever follows has a higher number, so the last come first.
pub fn longest_ways(network: &Network) -> Vec<u64> {
    let mut ways = vec![0; network.segments.len()];
    for (place, segment) in network.segments.iter().enumerate().rev() {
        let followers = segment.followers.places().into_iter().flatten();
        ways[place] = 1 + followers.map(|ahead| ways[ahead]).max().unwrap_or(0);
    }
    ways
}

/// P: the sum of N times that number.
pub fn way_left(network: &Network, case: &Case) -> u64 {
    let ways = longest_ways(network);
    let both = case.segments.iter().zip(ways);
    both.map(|(state, way)| state.count * way).sum()
}

/// The greatest K with N × 1000 × T ≥ K × 3600 × L at some segment. A step that
/// begins so counts for this K and every lower one.
pub fn fullest(network: &Network, case: &Case) -> u64 {
    let both = network.segments.iter().zip(&case.segments);
    both.map(|(segment, state)| {
        state.count * 1000 * u64::from(network.step) / (3600 * u64::from(segment.length))
    })
    .max()
    .unwrap_or(0)
}
