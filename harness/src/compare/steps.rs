//! Accepted steps of any sound case, live in a study: each is taken, and then
//! a second one.

use super::both::Both;
use super::Difference;
use crate::calls::Call;
use crate::cases::{self, arrivals};
use crate::made::fill_slots;
use crate::networks::{calm_road, road};
use crate::random::Random;
use crate::reached;
use crate::study::{Study, MOST_RUNS};

/// Numbers of segments that come up often.
const OFTEN: [u64; 4] = [1, 2, 12, 40];

pub fn one(random: &mut Random, index: u64) -> Result<(), Difference> {
    let (study, what) = study(random, index);
    take(random, &study).map_err(|difference| difference.of(&what))
}

/// A sound study with a step left, and what it is.
pub fn study(random: &mut Random, index: u64) -> (Study, String) {
    let segments = match OFTEN.get((index % 5) as usize) {
        Some(&segments) => segments,
        None => random.between(1, 40),
    };
    let (mut study, mood) = match index / 5 % 2 {
        0 => (wild(random, segments), "wild"),
        _ => (calm(random, segments), "calm"),
    };
    if random.once_in(8) {
        fill_slots(random, &mut study);
    }
    (study, format!("a {mood} case of {segments} segments"))
}

fn take(random: &mut Random, study: &Study) -> Result<(), Difference> {
    let mut both = Both::new(study.laid(random));
    let first = arrivals(random, &study.network);
    let live = study.cases[0].as_ref().expect("a live case");
    reached::note_step(&study.network, live, &first);
    both.expect(Call::Step(first.into()), 0)?;
    // The first step may bring the case past a bound: then this one is 12.
    let second = arrivals(random, &study.network);
    both.take(Call::Step(second.into()))?;
    Ok(())
}

fn wild(random: &mut Random, segments: u64) -> Study {
    let network = road(random, segments);
    let case = cases::wild(random, &network);
    Study::live(network, random.edge(0, MOST_RUNS - 1), case)
}

fn calm(random: &mut Random, segments: u64) -> Study {
    let network = calm_road(random, segments);
    let case = cases::calm(random, &network);
    Study::live(network, random.edge(0, MOST_RUNS - 1), case)
}
