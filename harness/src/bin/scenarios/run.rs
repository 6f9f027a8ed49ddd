//! One case of a set-up from start to end.

use crate::live::{Live, Seen};
use crate::road::{mv_a_step, Diagram, STEP};
use oracle::file::Network;

/// A road with its demand. Segments count from 1.
pub struct SetUp {
    pub network: Network,
    pub diagram: Diagram,
    /// Demand in veh/h at a segment's origin, at a time in seconds.
    pub demand: fn(&SetUp, u64, u64) -> f64,
    /// Highest demand of the ramp in veh/h, where a set-up has variants.
    pub peak: f64,
    /// In seconds.
    pub duration: u64,
}

/// What was seen before each step and, last, at the end: [step][segment − 1].
pub struct Outcome {
    /// In veh·h.
    pub time_spent: f64,
    seen: Vec<Vec<Seen>>,
    lane_metres: Vec<u64>,
}

impl SetUp {
    /// Runs a case; control acts before each step, on the case, the arrivals
    /// in mv and the time in seconds.
    pub fn run(&self, mut control: impl FnMut(&mut Live, &[u32], u64)) -> Outcome {
        let mut live = self.start();
        let mut seen = vec![self.look(&mut live)];
        for time in (0..self.duration).step_by(STEP as usize) {
            let arrivals = self.arrivals(time);
            control(&mut live, &arrivals, time);
            live.step(&arrivals);
            seen.push(self.look(&mut live));
        }
        Outcome {
            time_spent: live.time_spent(),
            seen,
            lane_metres: self
                .network
                .segments
                .iter()
                .map(|s| s.lane_metres())
                .collect(),
        }
    }

    /// Each segment carries the demand of time 0 from upstream, at the
    /// density and speed of the diagram; no queues.
    fn start(&self) -> Live {
        let mut flow = 0.0;
        let (mut counts, mut speeds) = (vec![], vec![]);
        for (segment, number) in self.network.segments.iter().zip(1..) {
            if segment.origin {
                flow += (self.demand)(self, number, 0);
            }
            let density = self.diagram.free_density(flow / f64::from(segment.lanes));
            counts.push((density * segment.lane_metres() as f64).round() as u64);
            speeds.push((1000.0 * self.diagram.speed(density)).round() as u64);
            flow *= 1.0 - f64::from(segment.exit_share) / 1000.0;
        }
        Live::start(&self.network, counts, speeds)
    }

    fn arrivals(&self, time: u64) -> Vec<u32> {
        let mut arrivals = vec![];
        for (segment, number) in self.network.segments.iter().zip(1..) {
            arrivals.push(match segment.origin {
                true => mv_a_step((self.demand)(self, number, time)),
                false => 0,
            });
        }
        arrivals
    }

    fn look(&self, live: &mut Live) -> Vec<Seen> {
        let n = self.network.segments.len() as u64;
        (1..=n).map(|segment| live.seen(segment)).collect()
    }
}

impl Outcome {
    /// In veh/km/lane.
    pub fn density(&self, segment: usize, time: u64) -> f64 {
        self.dense(segment, &self.seen[(time / STEP) as usize])
    }

    /// The queue in vehicles.
    pub fn queue(&self, segment: usize, time: u64) -> f64 {
        self.seen[(time / STEP) as usize][segment - 1].queue as f64 / 1000.0
    }

    /// The longest queue in vehicles.
    pub fn longest_queue(&self, segment: usize) -> f64 {
        let queues = self.seen.iter().map(|seen| seen[segment - 1].queue);
        queues.max().unwrap_or(0) as f64 / 1000.0
    }

    /// The density when the queue first has so many vehicles, in veh/km/lane.
    pub fn density_at_queue(&self, segment: usize, vehicles: u64) -> Option<f64> {
        let long = |seen: &&Vec<Seen>| seen[segment - 1].queue >= 1000 * vehicles;
        let seen = self.seen.iter().find(long)?;
        Some(self.dense(segment, seen))
    }

    /// When speed is the least bound of the main origin, in minutes: some wait
    /// there still, and fewer than R were released.
    pub fn bounded_by_speed(&self) -> String {
        let bounded = |step: &usize| {
            let main = &self.seen[*step][0];
            main.queue > 0 && main.release < main.rate
        };
        let steps: Vec<usize> = (1..self.seen.len()).filter(bounded).collect();
        let (Some(first), Some(last)) = (steps.first(), steps.last()) else {
            return "never".into();
        };
        let minutes = |step: usize| (step as u64 * STEP) as f64 / 60.0;
        let (from, to) = (minutes(first - 1), minutes(*last));
        let all = last - first + 1;
        format!("{from:.1} to {to:.1}, {} of {all} steps", steps.len())
    }

    /// The outflow of the step that ends at a time, in veh/h.
    pub fn outflow(&self, segment: usize, time: u64) -> f64 {
        hourly(self.seen[(time / STEP) as usize][segment - 1].outflow)
    }

    /// The highest outflow of a step, in veh/h.
    pub fn most_outflow(&self, segment: usize) -> f64 {
        let outflows = self.seen.iter().map(|seen| seen[segment - 1].outflow);
        hourly(outflows.max().unwrap_or(0))
    }

    /// When the density first is above so many veh/km/lane, in seconds.
    pub fn first_above(&self, segment: usize, density: f64) -> Option<u64> {
        let above = |seen: &Vec<Seen>| self.dense(segment, seen) > density;
        self.seen
            .iter()
            .position(above)
            .map(|step| step as u64 * STEP)
    }

    /// When the density is highest, in seconds.
    pub fn peak_time(&self, segment: usize) -> u64 {
        let counts = self.seen.iter().map(|seen| seen[segment - 1].count);
        let highest = counts.clone().max();
        let step = counts.into_iter().position(|count| Some(count) == highest);
        step.unwrap_or(0) as u64 * STEP
    }

    fn dense(&self, segment: usize, seen: &[Seen]) -> f64 {
        seen[segment - 1].count as f64 / self.lane_metres[segment - 1] as f64
    }
}

/// Mv a step as veh/h.
fn hourly(outflow: u64) -> f64 {
    outflow as f64 * 3.6 / STEP as f64
}
