//! What enters a segment from the segments before it.

/// Those that name a segment as their follower, whatever the share, taken in
/// the order of their numbers.
#[derive(Clone, Copy, Default)]
pub struct Entering {
    /// All that they pass on to it, in mv.
    pub passed_on: u64,
    /// How many there are.
    segments: u64,
    /// Sum of their whole outflows, in mv.
    outflow: u64,
    /// Sum of outflow × v, in mv·m/h.
    weighted: f64,
    /// v of the last of them from before the step, in m/h.
    last_speed: f64,
}

impl Entering {
    /// One more, which passes on a part of its outflow, both in mv.
    pub fn add(&mut self, passed_on: u64, outflow: u64, speed: f64) {
        let product = outflow as f64 * speed;
        self.weighted = match self.segments {
            0 => product,
            _ => self.weighted + product,
        };
        self.passed_on += passed_on;
        self.segments += 1;
        self.outflow += outflow;
        self.last_speed = speed;
    }

    /// u in m/h, for a segment with speed v: that of the one segment before,
    /// the mean by outflow of several, or v where nothing flows in.
    pub fn speed(&self, v: f64) -> f64 {
        match (self.segments, self.outflow) {
            (0, _) => v,
            (1, _) => self.last_speed,
            (_, 0) => v,
            (_, outflow) => self.weighted / outflow as f64,
        }
    }
}
