//! Segments from which nothing flows, where freeways meet or part.

use crate::random::Random;
use oracle::case::Case;
use oracle::file::Network;

/// Empties all segments that meet in one, or both that follow one, but for a
/// mv: then no outflow has a weight in u, or ρ' is 0. Now and then one of them
/// stays as it is. Where no freeways meet or part, nothing changes.
pub fn still(random: &mut Random, network: &Network, case: &mut Case) {
    let groups = groups(network);
    if groups.is_empty() {
        return;
    }
    let group = &groups[random.below(groups.len() as u64) as usize];
    let left_out = random.below(4 * group.len() as u64) as usize;
    for (turn, &place) in group.iter().enumerate() {
        if turn != left_out {
            case.segments[place].count = u64::from(random.once_in(4));
        }
    }
}

/// Places (from 0) that meet in one segment, or that follow one.
fn groups(network: &Network) -> Vec<Vec<usize>> {
    let places = 0..network.segments.len();
    let followers = |place: usize| network.segments[place].followers;
    let mut groups = Vec::new();
    for place in places.clone() {
        let enters = |before: &usize| followers(*before).name(place);
        groups.push(places.clone().filter(enters).collect());
        groups.push(followers(place).places().into_iter().flatten().collect());
    }
    groups.retain(|group: &Vec<usize>| group.len() > 1);
    groups
}
