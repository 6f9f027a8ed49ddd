//! The calls on a study, done in its arrays.

use super::places::{mark_at, Places, ARRANGEMENT_AT, MARKS_WORDS, RUNS_AT};
use super::{judge, Judged, ARRANGEMENT};
use crate::book::{rows, Call, Figures, Lengths, Start};
use crate::case::{Case, Setting, Sign};
use crate::file;
use crate::refusal::NOT_SOUND;
use crate::step::step;
use crate::stored;
use crate::stored_case;
use crate::survey;

/// Takes one call. A refused call changes nothing.
pub fn call(words: &mut [u64], speeds: &mut [f64], call: &Call) -> Result<Figures, u8> {
    if let Call::Start(begin) = call {
        return start(words, speeds, begin);
    }
    let study = judge(words, speeds)?;
    let mut arrays = Arrays {
        words,
        speeds,
        study,
    };
    match *call {
        Call::Start(_) => {}
        Call::Sign {
            segment,
            limit,
            compliance,
        } => arrays.sign(segment, limit, compliance)?,
        Call::Meter { segment, setting } => arrays.meter(segment, setting)?,
        Call::Step { arrivals } => arrays.step(arrivals)?,
        Call::Run { file } => return arrays.run(file),
        Call::Hold { slot } => arrays.hold(slot)?,
        Call::Recall { slot } => arrays.recall(slot)?,
        Call::Drop { slot } => arrays.drop_slot(slot)?,
        Call::Question { case, question } => {
            let case = arrays.case(case)?;
            return question.answer(&arrays.study.network, &case);
        }
        Call::RunCount => return Ok(vec![arrays.study.runs]),
    }
    Ok(Figures::new())
}

/// Start stores network, run count, marks, arrangement number and live case;
/// their free words become 0. The slots' words and speeds stay.
fn start(words: &mut [u64], speeds: &mut [f64], start: &Start) -> Result<Figures, u8> {
    let lengths = Lengths {
        words: words.len(),
        speeds: speeds.len(),
    };
    let network = file::parse(start.file)?;
    rows::judge_start(&network, lengths, start)?;
    let case = Case::start(&network, start.counts, start.speeds, start.queues);
    let places = Places::of(network.segments.len());
    stored::put(&network, words);
    words[RUNS_AT..][..MARKS_WORDS].fill(0);
    words[ARRANGEMENT_AT] = ARRANGEMENT;
    let own_speeds = &mut speeds[places.case_speeds(0)];
    stored_case::put(&case, &mut words[places.case_words(0)], own_speeds);
    Ok(Figures::new())
}

/// The arrays of a sound study.
struct Arrays<'a> {
    words: &'a mut [u64],
    speeds: &'a mut [f64],
    study: Judged,
}

impl Arrays<'_> {
    fn sign(&mut self, segment: u64, limit: u64, compliance: i64) -> Result<(), u8> {
        let place = rows::judge_segment(&self.study.network, segment)?;
        rows::judge_sign(limit, compliance)?;
        let Judged { places, live, .. } = &mut self.study;
        live.segments[place].sign = Sign::of(limit, compliance);
        stored_case::put_sign(live, place, &mut self.words[places.case_words(0)]);
        Ok(())
    }

    fn meter(&mut self, segment: u64, setting: Setting) -> Result<(), u8> {
        let Judged {
            places,
            network,
            live,
            ..
        } = &mut self.study;
        let place = rows::judge_segment(network, segment)?;
        rows::judge_meter(network, place, setting)?;
        live.segments[place].set_meter(&network.segments[place], setting);
        stored_case::put_setting(live, place, &mut self.words[places.case_words(0)]);
        Ok(())
    }

    fn step(&mut self, arrivals: &[u32]) -> Result<(), u8> {
        let Judged {
            places,
            network,
            runs,
            live,
            ..
        } = &mut self.study;
        rows::judge_step(network, arrivals, live.steps, *runs)?;
        step(network, live, arrivals);
        let own_speeds = &mut self.speeds[places.case_speeds(0)];
        stored_case::put_step(live, &mut self.words[places.case_words(0)], own_speeds);
        *runs += 1;
        self.words[RUNS_AT] = *runs;
        Ok(())
    }

    /// Row by row as single steps. A step leaves all but the live case and the
    /// run count, which row 16 bounds: of what was judged only the live case
    /// is judged anew.
    fn run(&mut self, file: &[u8]) -> Result<Figures, u8> {
        let rows = survey::rows(file, self.study.network.segments.len() as u64)?;
        Ok(survey::run(rows, |row| {
            self.judge_live()?;
            self.step(row)
        }))
    }

    /// 12 for the live case alone.
    fn judge_live(&self) -> Result<(), u8> {
        let Judged {
            places, network, ..
        } = &self.study;
        let own_speeds = &self.speeds[places.case_speeds(0)];
        match stored_case::sound(network, &self.words[places.case_words(0)], own_speeds) {
            true => Ok(()),
            false => Err(NOT_SOUND),
        }
    }

    fn hold(&mut self, slot: u64) -> Result<(), u8> {
        let slot = rows::judge_hold(&self.study.slots, slot)? + 1;
        self.copy(0, slot);
        self.words[mark_at(slot)] = 1;
        Ok(())
    }

    fn recall(&mut self, slot: u64) -> Result<(), u8> {
        let (_, &case) = rows::judge_filled(&self.study.slots, slot)?;
        self.copy(case, 0);
        Ok(())
    }

    fn drop_slot(&mut self, slot: u64) -> Result<(), u8> {
        let (_, &case) = rows::judge_filled(&self.study.slots, slot)?;
        self.words[mark_at(case)] = 0;
        Ok(())
    }

    /// Case 0 (live) or 1..6, by rows 21 and 23.
    fn case(&self, case: u64) -> Result<Case, u8> {
        let number = match case {
            0 => return Ok(self.study.live.clone()),
            _ => *rows::judge_filled(&self.study.slots, case)?.1,
        };
        let read = self.study.case(self.words, self.speeds, number);
        Ok(read.expect("a judged case"))
    }

    /// Copies every word and speed of a case, the free ones too.
    fn copy(&mut self, from: usize, to: usize) {
        let places = self.study.places;
        let to_word = places.case_words(to).start;
        self.words.copy_within(places.case_words(from), to_word);
        let to_speed = places.case_speeds(to).start;
        self.speeds.copy_within(places.case_speeds(from), to_speed);
    }
}
