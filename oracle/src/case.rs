//! One case of a study: the state of every segment, and the totals.

use crate::network::{Network, Segment};

#[derive(Clone, Debug, PartialEq)]
pub struct Case {
    /// One for each segment, in the order of their numbers.
    pub segments: Vec<SegmentState>,
    /// Steps on the line so far.
    pub steps: u64,
    /// All arrivals so far, in mv.
    pub arrivals: u64,
    /// All that has left by an off-ramp or where no segment follows, in mv.
    pub exits: u64,
    /// Time spent, in mv·s.
    pub time: u64,
}

#[derive(Clone, Debug, PartialEq)]
pub struct SegmentState {
    /// N: mv in the segment.
    pub count: u64,
    /// v: speed in m/h.
    pub speed: f64,
    /// w: mv in the origin queue.
    pub queue: u64,
    pub sign: Sign,
    pub setting: Setting,
    /// R: most mv that the meter lets in per step; Q where open.
    pub rate: u64,
    /// What an ALINEA ramp averages; nothing at any other.
    pub collected: Collected,
    /// Outflow of the last step in mv, exit part included.
    pub last_outflow: u64,
    /// b: what its division left, below 3600 × L; carried into the next step.
    pub remainder: u64,
    /// Release of the last step, in mv.
    pub last_release: u64,
}

/// What the speed sign over a segment shows.
#[derive(Clone, Copy, Debug, PartialEq, Eq)]
pub enum Sign {
    Dark,
    /// A limit in whole km/h, with compliance in thousandths.
    Shown {
        limit: u64,
        compliance: i64,
    },
}

/// How the ramp of a segment is metered.
#[derive(Clone, Copy, Debug, PartialEq, Eq)]
pub enum Setting {
    Open,
    /// A fixed rate, in mv per step.
    Fixed(u64),
    Alinea(Alinea),
}

/// ALINEA on the average density of its interval.
#[derive(Clone, Copy, Debug, PartialEq, Eq)]
pub struct Alinea {
    /// Density aimed at, in veh/km/lane.
    pub target: u64,
    /// mv per step for each veh/km/lane that the average is off.
    pub gain: u64,
    /// The rate is never below this, in mv per step.
    pub least: u64,
    /// z: steps from one change of the rate to the next.
    pub interval: u64,
}

/// Counts of a segment since its ALINEA ramp was set or last moved its rate.
#[derive(Clone, Copy, Debug, Default, PartialEq, Eq)]
pub struct Collected {
    /// S: sum of N before each of these steps, in mv.
    pub sum: u64,
    /// m: number of these steps.
    pub steps: u64,
}

impl Case {
    /// The case that a study starts with: ramps open, signs dark, flows,
    /// remainders and totals 0. Counts and queues in mv, speeds in whole m/h.
    pub fn start(network: &Network, counts: &[u64], speeds: &[u64], queues: &[u64]) -> Case {
        let start = |(place, segment): (usize, &Segment)| SegmentState {
            count: counts[place],
            speed: speeds[place] as f64,
            queue: queues[place],
            sign: Sign::Dark,
            setting: Setting::Open,
            rate: u64::from(segment.most_released),
            collected: Collected::default(),
            last_outflow: 0,
            remainder: 0,
            last_release: 0,
        };
        Case {
            segments: network.segments.iter().enumerate().map(start).collect(),
            steps: 0,
            arrivals: 0,
            exits: 0,
            time: 0,
        }
    }

    /// All mv in segments.
    pub fn in_segments(&self) -> u64 {
        self.segments.iter().map(|state| state.count).sum()
    }

    /// All mv in queues.
    pub fn in_queues(&self) -> u64 {
        self.segments.iter().map(|state| state.queue).sum()
    }
}

impl Sign {
    /// The sign of a judged limit (0 is dark) and compliance.
    pub fn of(limit: u64, compliance: i64) -> Sign {
        match limit {
            0 => Sign::Dark,
            _ => Sign::Shown { limit, compliance },
        }
    }

    /// The speed of a shown sign: limit × (1000 + a), in m/h.
    pub fn speed(self) -> Option<u64> {
        match self {
            Sign::Dark => None,
            Sign::Shown { limit, compliance } => Some(limit * (1000 + compliance) as u64),
        }
    }
}

impl SegmentState {
    /// s: the whole part of v, in m/h.
    pub fn whole_speed(&self) -> u64 {
        self.speed as u64
    }

    /// A meter always starts afresh: open and ALINEA begin at R = Q, and
    /// nothing has been collected.
    pub fn set_meter(&mut self, segment: &Segment, setting: Setting) {
        self.setting = setting;
        self.collected = Collected::default();
        self.rate = match setting {
            Setting::Fixed(rate) => rate,
            Setting::Open | Setting::Alinea(_) => u64::from(segment.most_released),
        };
    }
}
