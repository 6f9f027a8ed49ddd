//! The network of a study as typed data.

/// Entries of a curve: one for each density 0..200 veh/km/lane.
pub const ENTRIES: usize = 201;

/// The speed of equation 5 at density 0..200, in whole m/h.
pub type Curve = [u32; ENTRIES];

/// Freeways that part and meet: what is the same for all segments, the
/// curves, and the segments in the order of their numbers. A chain of segments
/// in driving order is the network of a file of version 1.
#[derive(Clone, Debug, PartialEq, Eq)]
pub struct Network {
    /// Version of the file, 1 or 2.
    pub version: u16,
    /// T: length of a step, in seconds.
    pub step: u8,
    /// τ: time in which speeds relax to the curve, in seconds.
    pub relaxation: u8,
    /// ν: anticipation of the density ahead, in km²/h.
    pub anticipation: u8,
    /// κ: density added below the fraction lines, in veh/km/lane.
    pub kappa: u8,
    /// δ: weight of merging vehicles, in thousandths.
    pub merging: u16,
    pub curves: Vec<Curve>,
    pub segments: Vec<Segment>,
}

/// One segment as its record gives it.
#[derive(Clone, Debug, PartialEq, Eq)]
pub struct Segment {
    /// L, in metres.
    pub length: u16,
    /// H: number of lanes.
    pub lanes: u8,
    /// Which curve the segment follows, from 0.
    pub curve: u8,
    /// C: critical density, in veh/km/lane.
    pub critical: u8,
    /// J: jam density, in veh/km/lane.
    pub jam: u8,
    /// Whether an origin queue enters here.
    pub origin: bool,
    /// X: share of the outflow that leaves by the off-ramp, in thousandths.
    pub exit_share: u16,
    /// Q: most mv released from the queue in a step; 0 without an origin.
    pub most_released: u32,
    /// Where the rest of the outflow goes.
    pub followers: Followers,
}

/// The segments that follow one, by their numbers from 1.
#[derive(Clone, Copy, Debug, PartialEq, Eq)]
pub struct Followers {
    /// 0 for none.
    pub first: u8,
    /// 0 for none.
    pub second: u8,
    /// Share of the rest that goes to the first, in thousandths.
    pub share: u16,
}

/// What enters a segment from outside.
#[derive(Clone, Copy, Debug, PartialEq, Eq)]
pub enum Origin {
    None,
    /// The freeway goes on upstream of the study.
    Mainstream,
    /// An on-ramp, which can be metered and merges.
    Ramp,
}

impl Network {
    /// The origin of the segment at that place (from 0): mainstream where no
    /// segment is before it.
    pub fn origin(&self, place: usize) -> Origin {
        match self.segments[place].origin {
            false => Origin::None,
            true if self.entered(place) => Origin::Ramp,
            true => Origin::Mainstream,
        }
    }

    /// Whether a segment is before that place (from 0): one that names it as
    /// its follower, whatever the share. A follower has a higher number.
    pub fn entered(&self, place: usize) -> bool {
        let mut lower = self.segments[..place].iter().rev();
        lower.any(|segment| segment.followers.name(place))
    }

    /// The curve that the segment follows.
    pub fn curve(&self, segment: &Segment) -> &Curve {
        &self.curves[usize::from(segment.curve)]
    }

    /// F: the first entry of the segment's curve, the free speed in m/h.
    pub fn free_speed(&self, segment: &Segment) -> u32 {
        self.curve(segment)[0]
    }
}

impl Segment {
    /// G = L × H.
    pub fn lane_metres(&self) -> u64 {
        u64::from(self.length) * u64::from(self.lanes)
    }

    /// 3600 × L, which every remainder b is below.
    pub fn remainder_end(&self) -> u64 {
        3_600 * u64::from(self.length)
    }
}

impl Followers {
    /// No segment follows.
    pub const NONE: Followers = Followers {
        first: 0,
        second: 0,
        share: 1000,
    };

    /// All goes to the segment of that number.
    pub const fn only(first: u8) -> Followers {
        Followers {
            first,
            ..Followers::NONE
        }
    }

    /// The places (from 0) of the first and of the second.
    pub fn places(self) -> [Option<usize>; 2] {
        [self.first, self.second].map(|number| usize::from(number).checked_sub(1))
    }

    /// Whether the segment at that place (from 0) is one of them.
    pub fn name(self, place: usize) -> bool {
        self.places().contains(&Some(place))
    }
}

/// The same segments, each followed by the next.
pub fn chain(mut segments: Vec<Segment>) -> Vec<Segment> {
    let n = segments.len();
    for (place, segment) in segments.iter_mut().enumerate() {
        segment.followers = match place + 1 == n {
            true => Followers::NONE,
            false => Followers::only(place as u8 + 2),
        };
    }
    segments
}
