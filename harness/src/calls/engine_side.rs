//! The calls on a study asked of the engine.

use super::{Answer, Call, Question, Start};
use crate::engine::{asked, Function};
use oracle::case::{Alinea, Setting};

/// Any call: the function that it goes to, its number, and what then stands
/// in its buffers.
pub fn ask_engine(words: &mut [u64], speeds: &mut [f64], call: &Call) -> (Function, Answer) {
    let mut answer = Answer::lent(call);
    let (figures, bytes) = (&mut answer.figures, &mut answer.bytes);
    let (function, number) = match *call {
        Call::Sound => asked!(study_sound(words, speeds)),
        Call::Start(ref start) => ask_start(words, speeds, start),
        Call::Sign {
            segment,
            limit,
            compliance,
        } => asked!(study_sign(words, speeds, segment, limit, compliance)),
        Call::Meter { segment, setting } => ask_meter(words, speeds, segment, setting),
        Call::Step(ref arrivals) => asked!(study_step(words, speeds, arrivals)),
        Call::Run { ref file, .. } => asked!(study_run(words, speeds, file, figures)),
        Call::Hold(slot) => asked!(study_hold(words, speeds, slot)),
        Call::Recall(slot) => asked!(study_recall(words, speeds, slot)),
        Call::Drop(slot) => asked!(study_drop(words, speeds, slot)),
        Call::Question {
            case, ref question, ..
        } => ask_question(words, speeds, case, question, figures),
        Call::RunCount { .. } => asked!(study_run_count(words, speeds, figures)),
        Call::Write { .. } => asked!(study_write(words, speeds, bytes)),
    };
    answer.number = number;
    (function, answer)
}

/// A question about a case.
fn ask_question(
    words: &mut [u64],
    speeds: &mut [f64],
    case: u64,
    question: &Question,
    figures: &mut [u64],
) -> (Function, u64) {
    match *question {
        Question::Case => asked!(study_report(words, speeds, case, figures)),
        Question::Segment(segment) => {
            asked!(study_report_segment(words, speeds, case, segment, figures))
        }
        Question::Drain(segment) => asked!(study_drain(words, speeds, case, segment, figures)),
    }
}

fn ask_start(words: &mut [u64], speeds: &mut [f64], start: &Start) -> (Function, u64) {
    let narrow = |list: &[u64]| -> Vec<u32> { list.iter().map(|&number| number as u32).collect() };
    let (mvs, queues) = (narrow(&start.counts), narrow(&start.queues));
    let initial_speeds = narrow(&start.speeds);
    let file = &start.file;
    asked!(study_start(
        words,
        speeds,
        file,
        &mvs,
        &initial_speeds,
        &queues
    ))
}

fn ask_meter(
    words: &mut [u64],
    speeds: &mut [f64],
    segment: u64,
    setting: Setting,
) -> (Function, u64) {
    match setting {
        Setting::Open => asked!(study_meter_open(words, speeds, segment)),
        Setting::Fixed(rate) => asked!(study_meter_fixed(words, speeds, segment, rate)),
        Setting::Alinea(alinea) => {
            let Alinea {
                target,
                gain,
                least,
                interval,
            } = alinea;
            asked!(study_meter_alinea(
                words, speeds, segment, target, gain, least, interval
            ))
        }
    }
}
