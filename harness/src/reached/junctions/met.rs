//! One segment of a step where freeways part and meet.

use oracle::case::Case;
use oracle::file::Network;
use oracle::network::Origin;
use oracle::step::flows::Flows;
use oracle::step::speed::density;

/// A network of version 2.
#[derive(Clone, Copy)]
pub struct Roads {
    /// Each segment is followed by the next alone.
    pub chain: bool,
    /// Segments without a follower, and mainstream origins.
    pub ends: usize,
    pub origins: usize,
}

/// One segment of a step.
pub struct Met {
    /// At the last segment alone, so that a network counts once.
    pub roads: Option<Roads>,
    /// Of each segment that enters: its outflow in mv, and its share in
    /// thousandths where it parts.
    pub entering: Vec<(u64, Option<u16>)>,
    /// Densities of the followers.
    pub ahead: Vec<f64>,
    /// The part of the first follower is rounded.
    pub rounded: bool,
}

impl Roads {
    fn of(network: &Network) -> Roads {
        let n = network.segments.len();
        let ahead = |place: usize| network.segments[place].followers.places();
        let is_next = |place: usize| {
            let next = ahead(place).into_iter().flatten();
            next.eq((place + 1..n).take(1))
        };
        let mainstream = |place: &usize| network.origin(*place) == Origin::Mainstream;
        Roads {
            chain: (0..n).all(is_next),
            ends: (0..n).filter(|&place| ahead(place) == [None; 2]).count(),
            origins: (0..n).filter(mainstream).count(),
        }
    }
}

impl Met {
    pub fn of(network: &Network, case: &Case, flows: &[Flows], place: usize) -> Met {
        let n = network.segments.len();
        let followers = |place: usize| network.segments[place].followers;
        let ahead = |place: usize| followers(place).places().into_iter().flatten();
        let enters = |before: &usize| followers(*before).name(place);
        let last = place + 1 == n && network.version == 2;
        let Flows {
            outflow, exit_part, ..
        } = flows[place];
        Met {
            roads: last.then(|| Roads::of(network)),
            entering: (0..n)
                .filter(enters)
                .map(|before| (flows[before].outflow, share_to(network, before, place)))
                .collect(),
            ahead: ahead(place)
                .map(|place| density(&network.segments[place], case.segments[place].count))
                .collect(),
            rounded: (outflow - exit_part) * u64::from(followers(place).share) % 1000 != 0,
        }
    }

    /// Whether the network, at its last segment, is such a one.
    pub fn is_on(&self, is_it: fn(Roads) -> bool) -> bool {
        self.roads.is_some_and(is_it)
    }

    pub fn several(&self) -> bool {
        self.entering.len() > 1
    }

    /// All that leaves the segments that enter, in mv.
    pub fn outflow(&self) -> u64 {
        self.entering.iter().map(|of| of.0).sum()
    }

    /// Of several segments that enter, one that parts has such a share.
    pub fn enters_with(&self, is_it: fn(u16) -> bool) -> bool {
        self.several() && self.entering.iter().any(|of| of.1.is_some_and(is_it))
    }

    /// How many of two followers are empty.
    pub fn empty_ahead(&self) -> Option<usize> {
        let empty = self.ahead.iter().filter(|&&density| density == 0.0);
        (self.ahead.len() == 2).then(|| empty.count())
    }
}

/// The share that a segment which parts has for one of its followers, in
/// thousandths.
fn share_to(network: &Network, from: usize, to: usize) -> Option<u16> {
    let followers = network.segments[from].followers;
    match followers.places() {
        [_, None] => None,
        [Some(first), _] if first == to => Some(followers.share),
        _ => Some(1000 - followers.share),
    }
}
