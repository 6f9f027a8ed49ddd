//! Questions about one case of a study. They change nothing, and book and
//! arrays answer them alike.

use super::rows::{judge_ramp, judge_segment};
use super::Figures;
use crate::case::{Case, SegmentState};
use crate::drain::Drain;
use crate::network::Network;

/// What is asked, with all arguments but the number of the case.
#[derive(Clone, Debug, PartialEq, Eq)]
pub enum Question {
    /// A report of the case.
    Case,
    /// A report of one segment, counted from 1.
    Segment(u64),
    /// How long the queue of a ramp takes to drain: its segment, from 1.
    Drain(u64),
}

impl Question {
    /// The answer, or the first row that applies after 12, 21 and 23.
    pub fn answer(&self, network: &Network, case: &Case) -> Result<Figures, u8> {
        match *self {
            Question::Case => Ok(case_figures(case).into()),
            Question::Segment(segment) => {
                let place = judge_segment(network, segment)?;
                Ok(segment_figures(&case.segments[place]).into())
            }
            Question::Drain(segment) => {
                let place = judge_segment(network, segment)?;
                judge_ramp(network, place)?;
                let state = &case.segments[place];
                Ok(Drain::of(state.queue, state.rate).figures().into())
            }
        }
    }
}

/// Steps, mv in segments, in queues, arrivals, exits, time in mv·s.
fn case_figures(case: &Case) -> [u64; 6] {
    [
        case.steps,
        case.in_segments(),
        case.in_queues(),
        case.arrivals,
        case.exits,
        case.time,
    ]
}

/// N, s, bits of v, w, last outflow, last release, R.
fn segment_figures(state: &SegmentState) -> [u64; 7] {
    [
        state.count,
        state.whole_speed(),
        state.speed.to_bits(),
        state.queue,
        state.last_outflow,
        state.last_release,
        state.rate,
    ]
}
