//! A busy road for the benchmark: about as much arrives as leaves, so that
//! the same case can be stepped again and again.

use harness::random::Random;
use harness::surveys::Day;
use oracle::case::{Alinea, Case, Setting, Sign};
use oracle::file::{Curve, Followers, Network, Segment};
use oracle::network::{chain, Origin};

/// Free speed of the first curve in m/h; each further one is slower.
const FREE_SPEED: f64 = 102_000.0;
/// Critical density in veh/km/lane, and the exponent of the curve.
const CRITICAL: f64 = 33.5;
const EXPONENT: f64 = 1.867;

const ALINEA: Alinea = Alinea {
    target: 30,
    gain: 200,
    least: 500,
    interval: 6,
};

/// Segments and curves of the roads that are timed.
pub const ROADS: [(usize, usize); 3] = [(1, 1), (12, 2), (40, 8)];
/// The same of those with ramps past segment 1, and of those with junctions.
pub const RAMPS: [(usize, usize); 2] = [(12, 2), (40, 8)];
pub const JUNCTIONS: [(usize, usize); 2] = [(12, 2), (40, 8)];
/// Steps after which the count begins at 0 again.
pub const LINE_STEPS: u64 = 20_000;

/// n segments of two lanes: an on-ramp at every fourth, an off-ramp two
/// segments after it.
pub fn road(segments: usize, curves: usize) -> Network {
    Network {
        version: 1,
        step: 10,
        relaxation: 18,
        anticipation: 60,
        kappa: 40,
        merging: 12,
        curves: (0..curves).map(curve).collect(),
        segments: chain(
            (0..segments)
                .map(|place| segment(place, segments, curves))
                .collect(),
        ),
    }
}

/// The same road with junctions, n being a multiple of four: each first of four
/// segments parts into the second and the third, which meet in the fourth. The
/// off-ramp is there.
pub fn junctions(segments: usize, curves: usize) -> Network {
    let mut network = road(segments, curves);
    network.version = 2;
    for (number, segment) in (1..).zip(&mut network.segments) {
        let end = usize::from(number) == segments;
        segment.exit_share = if number % 4 == 0 && !end { 75 } else { 0 };
        segment.followers = match number % 4 {
            1 => Followers {
                first: number + 1,
                second: number + 2,
                share: 500,
            },
            2 => Followers::only(number + 2),
            _ => segment.followers,
        };
    }
    network
}

/// Traffic below the critical density. Ramps are open, fixed and ALINEA in
/// turn; every third segment shows a limit.
pub fn traffic(network: &Network) -> Case {
    let n = network.segments.len();
    let full = |segment: &Segment| 25 * segment.lane_metres();
    let counts: Vec<u64> = network.segments.iter().map(full).collect();
    let mut case = Case::start(network, &counts, &vec![75_000; n], &vec![0; n]);
    let both = case.segments.iter_mut().zip(&network.segments);
    for (place, (state, segment)) in both.enumerate() {
        if network.origin(place) == Origin::Ramp {
            state.set_meter(segment, setting(place));
        }
        if place % 3 == 1 {
            let (limit, compliance) = (80, 50);
            state.sign = Sign::Shown { limit, compliance };
        }
    }
    case
}

/// The same traffic with ALINEA at every ramp, which moves its rate in every
/// step.
pub fn metered(network: &Network) -> Case {
    let mut case = traffic(network);
    let both = case.segments.iter_mut().zip(&network.segments);
    for (place, (state, segment)) in both.enumerate() {
        if network.origin(place) == Origin::Ramp {
            let interval = 1;
            let alinea = Alinea { interval, ..ALINEA };
            state.set_meter(segment, Setting::Alinea(alinea));
        }
    }
    case
}

/// N at ramps on either side of J × G, in a random order.
pub struct Jams {
    /// N of each segment below and above; the same where no ramp is.
    counts: Vec<[u64; 2]>,
    /// For each of many steps a bit for each segment.
    above: Vec<u64>,
}

impl Jams {
    /// One veh/km/lane below and above, so that little else in a step goes by
    /// the side.
    pub fn new(network: &Network) -> Jams {
        let counts = |(place, segment): (usize, &Segment)| {
            let jam = u64::from(segment.jam);
            let densities = match network.origin(place) {
                Origin::Ramp => [jam - 1, jam + 1],
                Origin::None | Origin::Mainstream => [20; 2],
            };
            densities.map(|density| density * segment.lane_metres())
        };
        let mut random = Random::new(1, 2, 4);
        Jams {
            counts: network.segments.iter().enumerate().map(counts).collect(),
            above: (0..4_096).map(|_| random.number()).collect(),
        }
    }

    /// N of each segment before such a step.
    pub fn counts(&self, turn: usize) -> impl Iterator<Item = u64> + '_ {
        let above = self.above[turn % self.above.len()];
        let sides = self.counts.iter().enumerate();
        sides.map(move |(place, side)| side[(above >> place & 1) as usize])
    }
}

/// Arrivals of many steps, in mv: about 3,600 vehicles an hour on the road
/// and 300 at each ramp.
pub fn arrivals(network: &Network) -> Vec<Vec<u32>> {
    let mut random = Random::new(1, 2, 3);
    let mut arriving = |(place, segment): (usize, &Segment)| match segment.origin {
        true if place == 0 => random.between(8_000, 12_000) as u32,
        true => random.between(0, 1_600) as u32,
        false => 0,
    };
    let mut step = |_| {
        let places = network.segments.iter().enumerate();
        places.map(&mut arriving).collect()
    };
    (0..64).map(&mut step).collect()
}

/// A survey file of so many rows: the same arrivals again and again.
pub fn survey(network: &Network, rows: usize) -> Vec<u8> {
    let n = network.segments.len();
    let arriving = arrivals(network).into_iter().flatten().cycle();
    let list = arriving.take(n * rows).collect();
    Day { n, list }.file()
}

/// The road has neither emptied nor jammed: mv per lane-metre over the road
/// is its mean density in veh/km/lane.
pub fn expect(network: &Network, counts: impl Iterator<Item = u64>) {
    let metres: u64 = network.segments.iter().map(Segment::lane_metres).sum();
    let density = counts.sum::<u64>() / metres;
    assert!((10..60).contains(&density), "{density} veh/km/lane");
}

fn segment(place: usize, segments: usize, curves: usize) -> Segment {
    let origin = place.is_multiple_of(4);
    let leaves = place % 4 == 2 && place + 1 < segments;
    Segment {
        length: 500 + 50 * (place % 5) as u16,
        lanes: 2,
        curve: (place % curves) as u8,
        critical: 33,
        jam: 180,
        origin,
        exit_share: if leaves { 75 } else { 0 },
        most_released: match origin {
            true if place == 0 => 12_000,
            true => 5_000,
            false => 0,
        },
        followers: Followers::NONE,
    }
}

/// METANET's equation 5 in whole m/h.
fn curve(number: usize) -> Curve {
    let free_speed = FREE_SPEED - 500.0 * number as f64;
    let fall = |density: f64| (-(density / CRITICAL).powf(EXPONENT) / EXPONENT).exp();
    std::array::from_fn(|density| (free_speed * fall(density as f64)) as u32)
}

fn setting(place: usize) -> Setting {
    match place / 4 % 3 {
        0 => Setting::Open,
        1 => Setting::Alinea(ALINEA),
        _ => Setting::Fixed(2_000),
    }
}
