//! Start: right, or with something wrong in the file or in a list.

use super::source::{any_list, Source};
use super::Scene;
use crate::calls::Start;
use crate::damages::{in_turn, FILE};
use crate::draft::{Draft, HEAD};
use crate::networks::network;
use crate::random::Random;
use oracle::file::{self, Network};

/// Most mv in a queue at the start.
const MOST_WAITING: u64 = 1_000_000;
/// The lists are of 32-bit numbers.
const WIDEST: u64 = u32::MAX as u64;

impl Scene<'_> {
    /// A Start on one of the networks that it may bring. Where it is not
    /// right, its file is damaged, or a list's length or one of its figures
    /// is wrong. Of any numbers only the lists are made.
    pub(super) fn start(&self, from: &mut Source) -> Start {
        let (random, wrong) = match from {
            Source::Any(next) => return any_start(next, &self.brought[0]),
            Source::Suited { random, wrong } => (random, wrong),
        };
        let chosen = random.below(self.brought.len() as u64) as usize;
        let mut start = good_start(random, &self.brought[chosen]);
        let [file, list, figure] = [wrong.next() | wrong.next(), wrong.next(), wrong.next()];
        if figure {
            spoil_figure(random, &self.brought[chosen], &mut start);
        }
        if list {
            spoil_lengths(random, &mut start);
        }
        if file {
            start.file = damaged_file(random);
        }
        start
    }
}

/// A Start that is right for this network: the ends of every range often.
pub fn good_start(random: &mut Random, network: &Network) -> Start {
    let mut start = Start {
        file: file::write(network).into(),
        counts: Vec::new(),
        speeds: Vec::new(),
        queues: Vec::new(),
    };
    for segment in &network.segments {
        let full = u64::from(segment.jam) * segment.lane_metres();
        let most = random.one_of(&[full, full / 4]);
        start.counts.push(random.edge(0, most));
        let free_speed = u64::from(network.free_speed(segment));
        start.speeds.push(random.edge(1_000, free_speed));
        let waiting = if segment.origin { MOST_WAITING } else { 0 };
        start.queues.push(random.edge(0, waiting));
    }
    start
}

/// The network's file, with lists of any numbers.
fn any_start(next: &mut dyn FnMut() -> u64, network: &Network) -> Start {
    let n = network.segments.len();
    let mut list = || any_list(next, n).into_iter().map(u64::from).collect();
    Start {
        file: file::write(network).into(),
        counts: list(),
        speeds: list(),
        queues: list(),
    }
}

/// A file that some row refuses.
fn damaged_file(random: &mut Random) -> Box<[u8]> {
    let damage = in_turn(&FILE, random.number());
    let mut draft = Draft::new(network(random, damage.shape()));
    let place = damage.place(&draft.network, random);
    (damage.apply)(&mut draft, place, random);
    if random.once_in(10) {
        draft.bytes.truncate(random.below(HEAD as u64) as usize);
    }
    draft.bytes.into()
}

/// One list, or all of them, longer or shorter.
fn spoil_lengths(random: &mut Random, start: &mut Start) {
    let n = start.counts.len();
    let length = random.outside(n as u64, n as u64, 60) as usize;
    match random.below(4) {
        0 => start.counts.resize(length, 0),
        1 => start.speeds.resize(length, 1_000),
        2 => start.queues.resize(length, 0),
        _ => {
            start.counts.resize(length, 0);
            start.speeds.resize(length, 0);
            start.queues.resize(length, 1);
        }
    }
}

/// Too many mv, a speed outside 1,000..F, or a queue too long or without an
/// origin.
fn spoil_figure(random: &mut Random, network: &Network, start: &mut Start) {
    let place = random.below(network.segments.len() as u64) as usize;
    let segment = &network.segments[place];
    match random.below(3) {
        0 => {
            let full = u64::from(segment.jam) * segment.lane_metres();
            start.counts[place] = random.edge(full + 1, WIDEST);
        }
        1 => {
            let free_speed = u64::from(network.free_speed(segment));
            start.speeds[place] = random.outside(1_000, free_speed, WIDEST);
        }
        _ => {
            let waiting = if segment.origin { MOST_WAITING } else { 0 };
            start.queues[place] = random.edge(waiting + 1, WIDEST);
        }
    }
}
