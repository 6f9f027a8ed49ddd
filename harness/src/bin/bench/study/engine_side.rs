//! The timed calls on a study, asked of the engine.

use super::lent::Lent;
use crate::busy::LINE_STEPS;
use harness::engine::{study_drain, study_drop, study_hold, study_recall};
use harness::engine::{study_report, study_report_segment, study_run, study_start, study_step};
use oracle::book::SLOTS;
use std::hint::black_box;

pub fn start(lent: &mut Lent) -> u64 {
    let [mvs, initial_speeds, queues] = &lent.arguments.lists;
    let file = black_box(&lent.arguments.file);
    let (words, speeds) = (&mut lent.words, &mut lent.speeds);
    study_start(words, speeds, file, mvs, initial_speeds, queues)
}

pub fn step(lent: &mut Lent) -> u64 {
    let (words, speeds, arrivals) = lent.next_step();
    study_step(words, speeds, black_box(arrivals))
}

pub fn run(lent: &mut Lent) -> u64 {
    let (words, speeds, figures, file) = lent.next_run();
    let number = study_run(words, speeds, black_box(file), figures);
    number + lent.rows_left()
}

/// Read and judged, then refused by 16.
pub fn refused_step(lent: &mut Lent) -> u64 {
    let (words, speeds, arrivals) = lent.step_after(LINE_STEPS);
    study_step(words, speeds, black_box(arrivals)) ^ 16
}

pub fn report(lent: &mut Lent) -> u64 {
    let case = black_box(lent.arguments.case);
    study_report(&mut lent.words, &mut lent.speeds, case, &mut lent.figures)
}

pub fn report_segment(lent: &mut Lent) -> u64 {
    let case = black_box(lent.arguments.case);
    let segment = black_box(lent.arguments.segment);
    let (words, speeds) = (&mut lent.words, &mut lent.speeds);
    study_report_segment(words, speeds, case, segment, &mut lent.figures)
}

pub fn drain(lent: &mut Lent) -> u64 {
    let case = black_box(lent.arguments.case);
    let segment = black_box(lent.arguments.ramp);
    let (words, speeds) = (&mut lent.words, &mut lent.speeds);
    study_drain(words, speeds, case, segment, &mut lent.figures)
}

pub fn hold_recall_drop(lent: &mut Lent) -> u64 {
    let slot = black_box(SLOTS as u64);
    let (words, speeds) = (&mut lent.words, &mut lent.speeds);
    match lent.arguments.case {
        0 => {
            study_hold(words, speeds, slot)
                + study_recall(words, speeds, slot)
                + study_drop(words, speeds, slot)
        }
        _ => {
            study_drop(words, speeds, slot)
                + study_hold(words, speeds, slot)
                + study_recall(words, speeds, slot)
        }
    }
}
