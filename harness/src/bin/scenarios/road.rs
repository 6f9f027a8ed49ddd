//! Network files from published parameters.

use oracle::file::{Curve, Followers, Network, Segment};
use oracle::network::{chain, ENTRIES};

/// T of every set-up, in seconds.
pub const STEP: u64 = 10;

/// The fundamental diagram of equation 5 of source document 004: free speed
/// in km/h, exponent a, critical density in veh/km/lane.
#[derive(Clone, Copy)]
pub struct Diagram {
    pub free: f64,
    pub exponent: f64,
    pub critical: f64,
}

impl Diagram {
    /// In km/h, at a density in veh/km/lane.
    pub fn speed(&self, density: f64) -> f64 {
        let share = (density / self.critical).powf(self.exponent);
        self.free * (-share / self.exponent).exp()
    }

    /// The speeds at densities 0..200 in whole m/h, the nearest.
    pub fn curve(&self) -> Curve {
        let mut entries = [0; ENTRIES];
        for (density, entry) in entries.iter_mut().enumerate() {
            *entry = (1000.0 * self.speed(density as f64)).round() as u32;
        }
        entries
    }

    /// The density up to the critical one that carries a flow in veh/h/lane;
    /// the critical one where none does.
    pub fn free_density(&self, flow: f64) -> f64 {
        let (mut below, mut above) = (0.0, self.critical);
        for _ in 0..60 {
            let middle = (below + above) / 2.0;
            match middle * self.speed(middle) < flow {
                true => below = middle,
                false => above = middle,
            }
        }
        above
    }
}

/// veh/h as mv a step, the nearest.
pub fn mv_a_step(flow: f64) -> u32 {
    (flow * STEP as f64 / 3.6).round() as u32
}

/// A segment without ramps: length in metres, lanes, C and J.
pub fn plain(length: u16, lanes: u8, critical: u8, jam: u8) -> Segment {
    Segment {
        length,
        lanes,
        curve: 0,
        critical,
        jam,
        origin: false,
        exit_share: 0,
        most_released: 0,
        followers: Followers::NONE,
    }
}

/// Gives a segment an origin of that capacity in veh/h.
pub fn put_origin(segment: &mut Segment, capacity: f64) {
    segment.origin = true;
    segment.most_released = mv_a_step(capacity);
}

/// A chain of these segments with tau 18 s, nu 60 km²/h and kappa
/// 40 veh/km/lane; delta in thousandths.
pub fn network(diagram: &Diagram, merging: u16, segments: Vec<Segment>) -> Network {
    Network {
        version: 1,
        step: STEP as u8,
        relaxation: 18,
        anticipation: 60,
        kappa: 40,
        merging,
        curves: vec![diagram.curve()],
        segments: chain(segments),
    }
}
