//! What the caller does beside ALINEA: a bound on the ramp's queue.

use crate::live::Live;
use oracle::case::{Alinea, Setting};

/// ALINEA's gain in veh/h for each veh/km/lane.
pub const GAIN: f64 = 40.0;

/// A ramp under ALINEA until its queue is full. From then on the whole demand
/// enters, until the density of the ramp's segment is below the target; then
/// ALINEA begins anew.
pub struct Ramp {
    pub segment: u64,
    pub alinea: Alinea,
    /// In mv.
    pub longest_queue: u64,
    pub rule: Rule,
    state: State,
}

/// When a queue is full.
#[derive(Clone, Copy, PartialEq)]
pub enum Rule {
    /// It has its longest length, and the density is not below the target.
    First,
    /// It has its longest length, whatever the density.
    Second,
}

#[derive(PartialEq)]
enum State {
    Unset,
    Metered,
    Full,
}

impl Ramp {
    pub fn new(segment: u64, alinea: Alinea, longest_queue: u64, rule: Rule) -> Ramp {
        Ramp {
            segment,
            alinea,
            longest_queue,
            rule,
            state: State::Unset,
        }
    }

    /// The queue was full, and the road is still dense.
    pub fn full(&self) -> bool {
        self.state == State::Full
    }

    /// Before a step with these arrivals in mv.
    pub fn act(&mut self, live: &mut Live, arrivals: &[u32]) {
        let place = self.segment as usize - 1;
        let seen = live.seen(self.segment);
        let road = &live.network().segments[place];
        let (lane_metres, most) = (road.lane_metres(), u64::from(road.most_released));
        let dense = seen.count >= self.alinea.target * lane_metres;
        let full = match self.full() {
            true => dense,
            false => seen.queue >= self.longest_queue && (dense || self.rule == Rule::Second),
        };
        if full {
            let demand = u64::from(arrivals[place]).min(most);
            live.meter(self.segment, Setting::Fixed(demand));
        } else if self.state != State::Metered {
            live.meter(self.segment, Setting::Alinea(self.alinea));
        }
        self.state = if full { State::Full } else { State::Metered };
    }
}
