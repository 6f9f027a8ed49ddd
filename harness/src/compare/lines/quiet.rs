//! Quiet lines: no queue waits and nothing arrives. In every step P falls by at
//! least all outflows. For each K above 0, the steps that begin with some
//! segment at N × 1000 × T ≥ K × 3600 × L, times K, are at most the first P.

pub mod worked;

use super::line::Line;
use super::{change, start};
use crate::calls::Call;
use crate::compare::Difference;
use crate::networks::{calm_road, road};
use crate::random::Random;
use crate::reached::quiet;
use oracle::emptying::{fullest, way_left};

/// Steps of one line.
const STEPS: usize = 40;

pub fn one(random: &mut Random, index: u64) -> Result<(), Difference> {
    let segments = random.edge(1, 40);
    let network = match index % 3 {
        2 => road(random, segments),
        _ => calm_road(random, segments),
    };
    let mut start = start(random, &network);
    start.queues.fill(0);
    let mut line = Line::begin(random, network, start)?;
    let most = way_left(&line.network, &line.case);
    let mut begun = Vec::new();
    for _ in 0..STEPS {
        if let Some(call) = change(random, &line) {
            line.take(call)?;
        }
        begun.push(step(&mut line)?);
    }
    permitted(&line, begun, most)?;
    line.end()
}

/// A step with no arrivals. Answers the greatest K for which it counts.
fn step(line: &mut Line) -> Result<u64, Difference> {
    let (full, before) = (
        fullest(&line.network, &line.case),
        way_left(&line.network, &line.case),
    );
    line.take(none(line))?;
    let outflows: u64 = line
        .case
        .segments
        .iter()
        .map(|state| state.last_outflow)
        .sum();
    let after = way_left(&line.network, &line.case);
    if after + outflows > before {
        let what = format!("P {before} becomes {after}, with outflows of {outflows}");
        return Err(line.differs(&none(line), what));
    }
    let now = fullest(&line.network, &line.case);
    quiet::note(before - after - outflows, full, now);
    Ok(full)
}

/// For no K more steps count than are permitted. Between the greatest K of one
/// step and that of the next fuller one as many steps count, so these are all.
fn permitted(line: &Line, mut begun: Vec<u64>, most: u64) -> Result<(), Difference> {
    begun.sort_unstable_by(|one, other| other.cmp(one));
    for (steps, k) in (1..).zip(begun) {
        if steps * k > most {
            let what = format!("{steps} steps begin with K {k} or more, P is {most}");
            return Err(line.differs(&none(line), what));
        }
    }
    Ok(())
}

fn none(line: &Line) -> Call {
    Call::Step(vec![0; line.network.segments.len()].into())
}
