//! Runs of rows on any sound study, many of them at an end of its ranges: both
//! sides do the same, and so do single steps.

use super::both::Both;
use super::{steps, Difference};
use crate::arrays::Arrays;
use crate::calls::{Answer, Call, RUN_FIGURES};
use crate::cases::{MOST_ARRIVING, MOST_COLLECTED, MOST_MV, MOST_STEPS, MOST_SUM, MOST_TIME};
use crate::engine::study_step;
use crate::random::Random;
use crate::study::{Study, MOST_RUNS};
use crate::surveys::Day;
use oracle::case::{Case, Setting};

pub fn one(random: &mut Random, index: u64) -> Result<(), Difference> {
    let (mut study, mut what) = steps::study(random, index);
    let mut day = Day::some(random, &study.network);
    let end = END[(index / 10) as usize % END.len()];
    put_at_end(random, &mut study, end, day.rows().len() as u64);
    if random.once_in(4) {
        day.spoil_row(random, &study.network);
    }
    what += &format!(", {end:?}, {} rows", day.rows().len());
    run(study.laid(random), &day).map_err(|difference| difference.of(&what))?;
    Ok(())
}

/// What is near its end before the run.
#[derive(Clone, Copy, Debug)]
enum End {
    None,
    Steps,
    Runs,
    Present,
    Arrivals,
    Exits,
    Time,
    Means,
}

const END: [End; 8] = [
    End::None,
    End::Steps,
    End::Runs,
    End::Present,
    End::Arrivals,
    End::Exits,
    End::Time,
    End::Means,
];

/// Brings a figure so near its end that some row meets it, mostly.
fn put_at_end(random: &mut Random, study: &mut Study, end: End, rows: u64) {
    let case = study.cases[0].as_mut().expect("a live case");
    let few = random.edge(0, MOST_ARRIVING * rows);
    match end {
        End::None => {}
        End::Steps => case.steps = MOST_STEPS - random.edge(0, rows),
        End::Runs => study.runs = MOST_RUNS - random.edge(0, rows),
        End::Present => wait(case, MOST_MV - few),
        End::Arrivals => case.arrivals = MOST_MV - few,
        End::Exits => case.exits = MOST_MV - few / 8,
        End::Time => {
            let present = case.in_segments() + case.in_queues();
            let grows = u64::from(study.network.step) * present * rows;
            case.time = MOST_TIME - random.below(grows + 1).min(MOST_TIME);
        }
        End::Means => collect(random, case, rows),
    }
}

/// So many mv wait at segment 1, and there are no others, so that few leave.
fn wait(case: &mut Case, waiting: u64) {
    for state in &mut case.segments {
        (state.count, state.queue) = (0, 0);
    }
    case.segments[0].queue = waiting;
}

/// Every ALINEA ramp has collected so much that a few steps without a turn pass
/// a bound.
fn collect(random: &mut Random, case: &mut Case, rows: u64) {
    for state in &mut case.segments {
        match state.setting {
            Setting::Alinea(_) if random.once_in(2) => {
                state.collected.steps = MOST_COLLECTED - random.edge(0, rows.min(MOST_COLLECTED));
            }
            Setting::Alinea(_) => {
                let few = state.count * random.edge(0, rows);
                state.collected.sum = MOST_SUM - few.min(MOST_SUM);
            }
            Setting::Open | Setting::Fixed(_) => {}
        }
    }
}

/// A run does what single steps do, up to the first that is refused.
pub fn run(arrays: Arrays, day: &Day) -> Result<Answer, Difference> {
    let mut stepped = arrays.clone();
    let mut both = Both::new(arrays);
    let file = day.file().into();
    let room = RUN_FIGURES;
    let answer = both.expect(Call::Run { file, room }, 0)?;
    let mut figures = [0, 0];
    for row in day.rows() {
        let (words, speeds) = stepped.lent();
        figures[1] = study_step(words, speeds, row);
        if figures[1] != 0 {
            break;
        }
        figures[0] += 1;
    }
    if *answer.figures != figures {
        let what = format!("{:?}, by single steps {figures:?}", answer.figures);
        return Err(both.differs(&what));
    }
    both.expect_arrays(&stepped)?;
    Ok(answer)
}
