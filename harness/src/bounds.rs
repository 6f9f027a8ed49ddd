//! F × T against 3600 × L: numbers at and just past the bound of row 8.

use crate::networks::{FASTEST, LONGEST, SHORTEST};
use crate::random::Random;
use oracle::file::Network;

/// Steps in seconds without a common divisor with 3600.
const ODD_STEPS: [u64; 15] = [7, 11, 13, 17, 19, 23, 29, 31, 37, 41, 43, 47, 49, 53, 59];

/// T in seconds, L in metres and F in m/h of one segment.
#[derive(Clone, Copy)]
pub struct Bound {
    pub step: u64,
    pub length: u64,
    pub free_speed: u64,
}

/// Marked in the paper: F × T is 3600 × L exactly.
pub const MARKED: Bound = Bound {
    step: 18,
    length: 500,
    free_speed: 100_000,
};

impl Bound {
    /// F the least whole number with F × T > 3600 × L.
    pub fn just_above(random: &mut Random) -> Bound {
        let step = random.edge(2, 60);
        let length = random.edge(SHORTEST, longest_broken(step));
        Bound {
            step,
            length,
            free_speed: 3600 * length / step + 1,
        }
    }

    /// F × T = 3600 × L + 1.
    pub fn one_above(random: &mut Random) -> Bound {
        let step = random.one_of(&ODD_STEPS);
        let mut length = random.between(SHORTEST, longest_broken(step) - step);
        while !(3600 * length + 1).is_multiple_of(step) {
            length += 1;
        }
        Bound {
            step,
            length,
            free_speed: (3600 * length + 1) / step,
        }
    }

    /// The marked case with F one higher.
    pub fn marked_above() -> Bound {
        Bound {
            free_speed: MARKED.free_speed + 1,
            ..MARKED
        }
    }

    /// Puts these numbers in at one record (from 0). All other records are
    /// made to suit their curves, so that row 8 is decided here.
    pub fn put(self, network: &mut Network, record: usize) {
        network.step = self.step as u8;
        for segment in &mut network.segments {
            segment.length = LONGEST as u16;
        }
        for entry in network.curves.iter_mut().flatten() {
            *entry = (*entry).min((3600 * LONGEST / self.step) as u32);
        }
        network.segments[record].length = self.length as u16;
        let curve = &mut network.curves[usize::from(network.segments[record].curve)];
        curve[0] = self.free_speed as u32;
        for entry in &mut curve[1..] {
            *entry = (*entry).min(self.free_speed as u32);
        }
    }
}

/// The least whole L in metres with F × T ≤ 3600 × L.
pub fn least_length(free_speed: u64, step: u64) -> u64 {
    (free_speed * step).div_ceil(3600)
}

/// One metre less than the free speed of a record permits.
pub fn too_short(network: &Network, record: usize) -> u64 {
    let free_speed = network.free_speed(&network.segments[record]);
    least_length(u64::from(free_speed), u64::from(network.step)) - 1
}

/// The longest segment in metres for which a permitted F is too high.
fn longest_broken(step: u64) -> u64 {
    ((FASTEST - 1) * step / 3600).min(LONGEST)
}
