//! Which segments follow which: a chain, or freeways that part and meet.

use crate::random::Random;
use oracle::file::Followers;

/// What a test needs of the ways through a network.
#[derive(Clone, Copy, PartialEq, Eq)]
pub enum Roads {
    /// No needs.
    Any,
    /// A file of version 1.
    Chain,
    /// A file of version 2.
    Junctions,
    /// Some segment has one before it.
    Entered,
    /// Some segment past the first has none before it.
    Source,
}

/// The version, and the followers of n segments. At least two segments are
/// there where one is to have another before it, or none.
pub fn drawn(random: &mut Random, n: u64, roads: Roads) -> (u16, Vec<Followers>) {
    let version = match roads {
        Roads::Chain => 1,
        Roads::Any | Roads::Entered if random.once_in(3) => 1,
        _ => 2,
    };
    let mut followers = match version == 1 || random.once_in(5) {
        true => chain(n),
        false => junctions(random, n),
    };
    let entered = |place: &usize| entered(&followers, *place);
    let mut later = 1..n as usize;
    match roads {
        Roads::Entered if !later.any(|place| entered(&place)) => {
            followers[0] = Followers::only(2);
        }
        Roads::Source if later.all(|place| entered(&place)) => {
            let place = random.edge(1, n - 1) as usize;
            leave(&mut followers, place);
        }
        _ => {}
    }
    (version, followers)
}

/// Whether a segment is before that place (from 0).
pub fn entered(followers: &[Followers], place: usize) -> bool {
    followers.iter().any(|followers| followers.name(place))
}

/// Takes all that enter a place (from 0) away from it.
pub fn leave(followers: &mut [Followers], place: usize) {
    for followers in followers {
        let Followers { first, second, .. } = *followers;
        match followers.places() {
            [Some(first), _] if first == place => *followers = Followers::only(second),
            [_, Some(second)] if second == place => *followers = Followers::only(first),
            _ => {}
        }
    }
}

/// Each segment is followed by the next.
fn chain(n: u64) -> Vec<Followers> {
    let next = |number: u64| match number == n {
        true => Followers::NONE,
        false => Followers::only(number as u8 + 1),
    };
    (1..=n).map(next).collect()
}

/// Any followers. One segment draws others to it, some or most of them.
fn junctions(random: &mut Random, n: u64) -> Vec<Followers> {
    let hub = random.between(1, n);
    let pull = random.below(4);
    (1..=n)
        .map(|number| ahead(random, number, n, (hub, pull)))
        .collect()
}

/// None, one or two followers of the segment of that number.
fn ahead(random: &mut Random, number: u64, n: u64, hub: (u64, u64)) -> Followers {
    if number == n || random.once_in(8) {
        return Followers::NONE;
    }
    let first = follower(random, number, n, hub);
    let second = follower(random, number, n, hub);
    match first == second || random.once_in(2) {
        true => Followers::only(first),
        false => Followers {
            first,
            second,
            share: random.edge(0, 1000) as u16,
        },
    }
}

/// A higher number: the one that draws others, the next, one soon after, or
/// any.
fn follower(random: &mut Random, number: u64, n: u64, (hub, pull): (u64, u64)) -> u8 {
    if hub > number && random.below(4) < pull {
        return hub as u8;
    }
    let follower = match random.below(4) {
        0 => random.between(number + 1, n),
        1 => random.between(number + 1, n.min(number + 4)),
        _ => number + 1,
    };
    follower as u8
}
