//! Sound cases of a network: every figure over its whole range, ends and
//! turning points often.

mod arrivals;
mod collected;
mod figures;
mod ramps;
mod still;

use crate::random::Random;
pub use arrivals::{arrivals, spoil_arrival, spoil_length};
pub use figures::sign;
use oracle::case::{Case, Collected, SegmentState, Setting};
use oracle::file::Network;
use oracle::network::Origin;
pub use ramps::{alinea, fixed, set_any};

/// Most mv of any figure, and most mv in all.
pub const MOST_MV: u64 = 1_000_000_000_000;
/// Most steps that ALINEA has collected, and most mv in their sum.
pub const MOST_COLLECTED: u64 = 60;
pub const MOST_SUM: u64 = MOST_COLLECTED * MOST_MV;
/// Most time spent, in mv·s.
pub const MOST_TIME: u64 = 1_000_000_000_000_000_000;
/// Most steps on a line.
pub const MOST_STEPS: u64 = 20_000;
/// Most mv that arrive at a segment in a step.
pub const MOST_ARRIVING: u64 = 1_000_000;

/// A sound case with a step left: no figure has anything to do with another,
/// and one case in four has as many mv as it may, or nearly.
pub fn wild(random: &mut Random, network: &Network) -> Case {
    let mut case = ordinary(random, network);
    if random.once_in(4) {
        crowd(random, &mut case);
    }
    case
}

/// A sound case with a step left whose segments are about equally full and
/// equally fast.
pub fn calm(random: &mut Random, network: &Network) -> Case {
    let mut case = ordinary(random, network);
    let density = random.edge(0, 60);
    let pace = random.between(1_000, 150_000);
    for (state, segment) in case.segments.iter_mut().zip(&network.segments) {
        let metres = segment.lane_metres();
        state.count = (density + random.below(6)) * metres + random.below(metres);
        let speed = pace as f64 + figures::fraction(random) * 8_000.0;
        state.speed = speed.min(f64::from(network.free_speed(segment)));
    }
    case
}

/// Any sound case whose mv stay far below the bound.
fn ordinary(random: &mut Random, network: &Network) -> Case {
    let places = 0..network.segments.len();
    let mut case = Case {
        segments: places.map(|place| state(random, network, place)).collect(),
        steps: 0,
        arrivals: random.edge(0, MOST_MV),
        exits: random.edge(0, MOST_MV),
        time: random.edge(0, MOST_TIME),
    };
    case.steps = steps(random, &case);
    collected::collect(random, network, &mut case);
    if random.once_in(4) {
        still::still(random, network, &mut case);
    }
    case
}

fn state(random: &mut Random, network: &Network, place: usize) -> SegmentState {
    let segment = &network.segments[place];
    let mut state = SegmentState {
        count: figures::count(random, segment),
        speed: figures::speed(random, network.free_speed(segment)),
        queue: figures::queue(random, segment),
        sign: sign(random),
        setting: Setting::Open,
        rate: u64::from(segment.most_released),
        collected: Collected::default(),
        last_outflow: random.edge(0, MOST_MV),
        remainder: random.edge(0, segment.remainder_end() - 1),
        last_release: random.edge(0, MOST_MV),
    };
    match network.origin(place) {
        Origin::Mainstream if random.once_in(2) => {
            figures::put_at_entry(random, network.curve(segment), segment, &mut state);
        }
        Origin::Ramp => set_any(random, segment, &mut state),
        _ => {}
    }
    state
}

/// Steps so far: none, all but one, any, or such that some ramp's interval
/// divides them.
fn steps(random: &mut Random, case: &Case) -> u64 {
    match random.below(4) {
        0 => 0,
        1 => MOST_STEPS - 1,
        2 => random.below(MOST_STEPS),
        _ => {
            let place = random.below(case.segments.len() as u64) as usize;
            let interval = ramps::interval(&case.segments[place].setting);
            interval * random.below(MOST_STEPS / interval)
        }
    }
}

/// Brings the mv in all up to the bound, or near it, at one place; all other
/// places may be emptied before.
fn crowd(random: &mut Random, case: &mut Case) {
    if random.once_in(2) {
        for state in &mut case.segments {
            (state.count, state.queue) = (0, 0);
        }
    }
    let present = case.in_segments() + case.in_queues();
    let room = random.edge(MOST_MV / 2, MOST_MV) - present;
    let place = random.edge(0, case.segments.len() as u64 - 1) as usize;
    match random.once_in(3) {
        true => case.segments[place].queue += room,
        false => case.segments[place].count += room,
    }
}
