//! Lines of many steps from a Start on: signs and meters are set between
//! steps, and the arrays are compared after every call. The expected arrays
//! are laid out from the oracle's typed case.

mod line;
mod outflows;
pub mod quiet;

use super::Difference;
use crate::calls::{Call, Start};
use crate::cases::{self, set_any, sign, MOST_ARRIVING, MOST_STEPS};
use crate::networks::{calm_road, road};
use crate::random::Random;
use line::Line;
use oracle::case::Sign;
use oracle::file::{self, Network};
use oracle::network::Origin;

/// Steps of one line.
const STEPS: u64 = 2_000;
/// Numbers of segments, in turn; 0 stands for any.
const SEGMENTS: [u64; 5] = [12, 40, 1, 2, 0];

pub fn one(random: &mut Random, index: u64) -> Result<(), Difference> {
    let segments = match SEGMENTS[(index % 5) as usize] {
        0 => random.between(3, 39),
        segments => segments,
    };
    let network = match index % 3 {
        2 => road(random, segments),
        _ => calm_road(random, segments),
    };
    let start = start(random, &network);
    let mut line = Line::begin(random, network, start)?;
    // The last step may be the last that any line has.
    line.put_steps(random.edge(0, MOST_STEPS - STEPS));
    let most = random.one_of(&[3_000, 30_000, MOST_ARRIVING]);
    for turn in 1..=STEPS {
        let what = format!("step {turn} of a line of {segments} segments");
        next(random, &mut line, most).map_err(|difference| difference.of(&what))?;
    }
    line.end()
}

/// One step, perhaps with a change and a refused step before it.
fn next(random: &mut Random, line: &mut Line, most: u64) -> Result<(), Difference> {
    if let Some(call) = change(random, line) {
        line.take(call)?;
    }
    let arrivals = arrivals(random, &line.network, most);
    if random.once_in(40) {
        refused(random, line, &arrivals)?;
    }
    line.take(Call::Step(arrivals.into()))
}

/// Segments that are about equally full and equally fast.
fn start(random: &mut Random, network: &Network) -> Start {
    let mut start = Start {
        file: file::write(network).into(),
        counts: Vec::new(),
        speeds: Vec::new(),
        queues: Vec::new(),
    };
    let calm = cases::calm(random, network);
    for (state, segment) in calm.segments.iter().zip(&network.segments) {
        let full = u64::from(segment.jam) * segment.lane_metres();
        start.counts.push(state.count.min(full));
        start.speeds.push(state.speed as u64);
        let waiting = if segment.origin { MOST_ARRIVING } else { 0 };
        start.queues.push(state.queue.min(waiting));
    }
    start
}

/// Now and then another sign or another setting somewhere.
fn change(random: &mut Random, line: &Line) -> Option<Call> {
    let place = random.below(line.network.segments.len() as u64) as usize;
    let network = &line.network.segments[place];
    let segment = place as u64 + 1;
    match random.below(12) {
        0 => {
            let (limit, compliance) = match sign(random) {
                Sign::Dark => (0, 0),
                Sign::Shown { limit, compliance } => (limit, compliance),
            };
            Some(Call::Sign {
                segment,
                limit,
                compliance,
            })
        }
        1 if line.network.origin(place) == Origin::Ramp => {
            let mut state = line.case.segments[place].clone();
            set_any(random, network, &mut state);
            let setting = state.setting;
            Some(Call::Meter { segment, setting })
        }
        _ => None,
    }
}

/// Up to `most` mv at each origin, none one time in four.
fn arrivals(random: &mut Random, network: &Network, most: u64) -> Vec<u32> {
    let mut arriving = |origin: bool| match random.below(4) {
        _ if !origin => 0,
        0 => 0,
        _ => random.between(0, most) as u32,
    };
    let origins = network.segments.iter().map(|segment| segment.origin);
    origins.map(&mut arriving).collect()
}

/// A step that is refused in between changes nothing.
fn refused(random: &mut Random, line: &mut Line, arrivals: &[u32]) -> Result<(), Difference> {
    let mut arrivals = arrivals.to_vec();
    let number = match random.once_in(2) {
        true => {
            arrivals.push(0);
            13
        }
        false => {
            let place = random.below(arrivals.len() as u64) as usize;
            arrivals[place] = MOST_ARRIVING as u32 + 1;
            15
        }
    };
    line.expect(&Call::Step(arrivals.into()), number)
}
