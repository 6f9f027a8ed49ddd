//! Studies written by hand whose ALINEA ramp is at the end of m or of S. Where
//! nothing is cleared, both sides take one row of a run, or one step, and answer
//! 12 to the next.

use super::both::Both;
use super::{runs, Difference};
use crate::arrays::Arrays;
use crate::calls::Call;
use crate::cases::{self, alinea, MOST_COLLECTED, MOST_STEPS, MOST_SUM};
use crate::made::NOT_SOUND;
use crate::networks::{network, Roads, Shape, ANY};
use crate::random::Random;
use crate::study::Study;
use crate::surveys::Day;
use oracle::case::{Collected, Setting};
use oracle::file::Network;

/// Rows of each run.
const ROWS: u64 = 3;

/// What is at its end, and how z stands to t.
#[derive(Clone, Copy, Debug)]
enum End {
    /// m is 60, and z does not divide t.
    Steps,
    /// S is so near its bound that N brings it past, and z does not divide t.
    Sum,
    /// The same of no steps, where z divides t: nothing is cleared.
    SumOfNone,
    /// Both are at their bounds, and z divides t.
    Turn,
    /// This step brings both to their bounds, and z divides the next t.
    NextTurn,
}

const ENDS: [End; 5] = [
    End::Steps,
    End::Sum,
    End::SumOfNone,
    End::Turn,
    End::NextTurn,
];

pub fn one(random: &mut Random, index: u64) -> Result<(), Difference> {
    let end = ENDS[(index % 5) as usize];
    let study = study(random, end);
    let day = Day::of(random, &study.network, ROWS);
    let figures = match end {
        End::Steps | End::Sum | End::SumOfNone => [1, NOT_SOUND],
        End::Turn | End::NextTurn => [ROWS, 0],
    };
    let arrays = study.laid(random);
    expect(&arrays, &day, figures).map_err(|difference| difference.of(&format!("{end:?}")))
}

/// A run ends with these figures, and single steps do the same.
fn expect(arrays: &Arrays, day: &Day, figures: [u64; 2]) -> Result<(), Difference> {
    let answer = runs::run(arrays.clone(), day)?;
    if *answer.figures != figures {
        let what = format!("expected {figures:?}, {:?} from both sides", answer.figures);
        let input = arrays.in_words().into_bytes();
        return Err(Difference { what, input });
    }
    let [taken, number] = figures;
    let mut both = Both::new(arrays.clone());
    for (before, row) in (0..).zip(day.rows()) {
        let expected = if before < taken { 0 } else { number };
        both.expect(Call::Step(row.into()), expected)?;
    }
    both.expect(Call::Sound, number)?;
    Ok(())
}

/// A calm study without totals, one of whose ramps is at that end. The others
/// have collected nothing.
fn study(random: &mut Random, end: End) -> Study {
    let (network, place) = with_ramp(random);
    let mut case = cases::calm(random, &network);
    (case.arrivals, case.exits, case.time) = (0, 0, 0);
    for state in &mut case.segments {
        state.collected = Collected::default();
    }
    let interval = random.edge(2, 60);
    let turns = random.below(MOST_STEPS / interval - ROWS);
    case.steps = interval * turns + after_turn(random, end, interval);
    let (segment, ramp) = (&network.segments[place], &mut case.segments[place]);
    alinea(random, segment, ramp);
    if let Setting::Alinea(alinea) = &mut ramp.setting {
        alinea.interval = interval;
    }
    ramp.count = random.between(1, 200 * segment.lane_metres());
    ramp.collected = at_end(random, end, ramp.count);
    Study::live(network, 0, case)
}

/// A network with a segment (from 0) that has an origin and another before it.
fn with_ramp(random: &mut Random) -> (Network, usize) {
    let shape = Shape {
        least_segments: 2,
        roads: Roads::Entered,
        ..ANY
    };
    let mut network = network(random, shape);
    let later = 1..network.segments.len();
    let entered: Vec<usize> = later.filter(|&place| network.entered(place)).collect();
    let place = entered[random.below(entered.len() as u64) as usize];
    let segment = &mut network.segments[place];
    segment.origin = true;
    segment.most_released = random.edge(1, 300_000) as u32;
    (network, place)
}

/// Steps since z last divided their number.
fn after_turn(random: &mut Random, end: End, interval: u64) -> u64 {
    match end {
        End::Steps | End::Sum => random.edge(1, interval - 1),
        End::SumOfNone | End::Turn => 0,
        End::NextTurn => interval - 1,
    }
}

/// S and m where N is so many mv, and not 0.
fn at_end(random: &mut Random, end: End, count: u64) -> Collected {
    let past = MOST_SUM - random.edge(0, count - 1);
    let (sum, steps) = match end {
        End::Steps => (random.edge(0, MOST_SUM), MOST_COLLECTED),
        End::Sum => (past, random.edge(1, MOST_COLLECTED - 1)),
        End::SumOfNone => (past, 0),
        End::Turn => (MOST_SUM, MOST_COLLECTED),
        End::NextTurn => (MOST_SUM - count, MOST_COLLECTED - 1),
    };
    Collected { sum, steps }
}
