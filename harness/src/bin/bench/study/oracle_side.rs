//! The same calls asked of the oracle, on arrays of the same content.

use super::lent::Lent;
use oracle::book::{Call, Figures, Question, Start, SLOTS};
use oracle::study;
use std::hint::black_box;

pub fn start(lent: &mut Lent) -> u64 {
    let [counts, speeds, queues] = &lent.arguments.wide_lists;
    let call = Call::Start(Start {
        file: black_box(&lent.arguments.file),
        counts,
        speeds,
        queues,
    });
    number(study::call(&mut lent.words, &mut lent.speeds, &call))
}

pub fn step(lent: &mut Lent) -> u64 {
    let (words, speeds, arrivals) = lent.next_step();
    let arrivals = black_box(arrivals);
    number(study::call(words, speeds, &Call::Step { arrivals }))
}

pub fn run(lent: &mut Lent) -> u64 {
    let (words, speeds, figures, file) = lent.next_run();
    let file = black_box(file);
    let result = study::call(words, speeds, &Call::Run { file });
    if let Ok(taken) = &result {
        figures.copy_from_slice(taken);
    }
    number(result) + lent.rows_left()
}

pub fn report(lent: &mut Lent) -> u64 {
    report_of(lent, &Question::Case)
}

pub fn report_segment(lent: &mut Lent) -> u64 {
    let segment = black_box(lent.arguments.segment);
    report_of(lent, &Question::Segment(segment))
}

pub fn drain(lent: &mut Lent) -> u64 {
    let segment = black_box(lent.arguments.ramp);
    report_of(lent, &Question::Drain(segment))
}

pub fn hold_recall_drop(lent: &mut Lent) -> u64 {
    let slot = black_box(SLOTS as u64);
    let [hold, recall, drop] = [
        Call::Hold { slot },
        Call::Recall { slot },
        Call::Drop { slot },
    ];
    let calls = match lent.arguments.case {
        0 => [hold, recall, drop],
        _ => [drop, hold, recall],
    };
    let mut ask = |call| number(study::call(&mut lent.words, &mut lent.speeds, call));
    calls.iter().map(&mut ask).sum()
}

fn number(result: Result<Figures, u8>) -> u64 {
    result.err().map_or(0, u64::from)
}

/// A report with its figures put where the engine puts them.
fn report_of(lent: &mut Lent, question: &Question) -> u64 {
    let case = black_box(lent.arguments.case);
    let call = Call::Question { case, question };
    let result = study::call(&mut lent.words, &mut lent.speeds, &call);
    if let Ok(figures) = &result {
        lent.figures[..figures.len()].copy_from_slice(figures);
    }
    number(result)
}
