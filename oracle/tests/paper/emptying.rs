//! The longest way out beside all ways out, P by hand, and from which mv on a
//! segment is at K.

use crate::networks::{followers, junction, tallies, three_segments};
use oracle::case::Case;
use oracle::emptying::{fullest, longest_ways, way_left};
use oracle::network::Network;

/// The numbers of segments on all ways out of a place (from 0).
fn ways_out(network: &Network, place: usize) -> Vec<u64> {
    let ahead = network.segments[place].followers.places();
    let ahead: Vec<usize> = ahead.into_iter().flatten().collect();
    match ahead.is_empty() {
        true => vec![1],
        false => ahead
            .into_iter()
            .flat_map(|place| ways_out(network, place))
            .map(|ahead| 1 + ahead)
            .collect(),
    }
}

/// A case with these mv in segments and none in queues.
fn with(network: &Network, counts: &[u64]) -> Case {
    let n = network.segments.len();
    Case::start(network, counts, &vec![90_000; n], &vec![0; n])
}

#[test]
fn ways_of_a_chain_and_of_a_junction() {
    assert_eq!(longest_ways(&tallies()), [1]);
    assert_eq!(longest_ways(&three_segments()), [3, 2, 1]);
    assert_eq!(longest_ways(&junction()), [3, 3, 2, 1, 1]);
}

/// The longer way goes by the second follower of 1 and by the first of 2.
#[test]
fn no_way_out_is_longer() {
    let mut network = junction();
    network.segments.push(network.segments[4].clone());
    let ahead = [
        [6, 2, 1],
        [3, 5, 0],
        [4, 6, 500],
        [6, 0, 1000],
        [6, 0, 1000],
        [0, 0, 1000],
    ];
    for (segment, ahead) in network.segments.iter_mut().zip(ahead) {
        segment.followers = followers(ahead);
    }
    let longest = (0..6).map(|place| ways_out(&network, place).into_iter().max());
    let longest: Option<Vec<u64>> = longest.collect();
    assert_eq!(longest, Some(longest_ways(&network)));
    assert_eq!(longest_ways(&network), [5, 4, 3, 2, 2, 1]);
}

#[test]
fn p_of_a_junction() {
    let network = junction();
    let case = with(&network, &[1, 20, 300, 4_000, 50_000]);
    assert_eq!(way_left(&network, &case), 3 + 60 + 600 + 4_000 + 50_000);
}

/// T 10 and L 500: K times 180 mv.
#[test]
fn the_fullest_segment() {
    let network = junction();
    let full = |counts: [u64; 5]| fullest(&network, &with(&network, &counts));
    assert_eq!(full([179, 0, 0, 0, 0]), 0);
    assert_eq!(full([0, 0, 180, 0, 179]), 1);
    assert_eq!(full([17_999, 0, 0, 0, 0]), 99);
    assert_eq!(full([0, 17_999, 0, 0, 18_000]), 100);
}
