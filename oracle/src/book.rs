//! The book of a study: what the calls on it should have done, in lines.
//!
//! A line is the list of signs, meters and steps that led to a case. The book
//! is fed the arguments of the calls and the lengths of the two lent arrays,
//! nothing out of the arrays, so that row 12 (study not sound) never applies.

mod calls;
mod line;
mod questions;
pub(crate) mod rows;

use crate::case::{Case, Setting, Sign};
use crate::file;
use crate::network::Network;
use crate::survey;
pub use calls::{Call, Figures, Lengths, Start};
pub use line::{Item, Line};
pub use questions::Question;

/// Slots for held cases.
pub const SLOTS: usize = 6;

/// A book begins with an accepted Start.
#[derive(Clone, Debug)]
pub struct Book {
    lengths: Lengths,
    network: Network,
    start: Case,
    live: Line,
    slots: [Option<Line>; SLOTS],
    runs: u64,
}

impl Book {
    /// The book after a Start, or the number that refuses it.
    pub fn start(lengths: Lengths, start: &Start) -> Result<Book, u8> {
        let network = file::parse(start.file)?;
        rows::judge_start(&network, lengths, start)?;
        let case = Case::start(&network, start.counts, start.speeds, start.queues);
        Ok(Book {
            lengths,
            network,
            start: case.clone(),
            live: Line::new(case),
            slots: Default::default(),
            runs: 0,
        })
    }

    /// Takes one call. A refused call changes nothing.
    pub fn call(&mut self, call: &Call) -> Result<Figures, u8> {
        match *call {
            Call::Start(start) => *self = Book::start(self.lengths, &start)?,
            Call::Sign {
                segment,
                limit,
                compliance,
            } => self.sign(segment, limit, compliance)?,
            Call::Meter { segment, setting } => self.meter(segment, setting)?,
            Call::Step { arrivals } => self.step(arrivals)?,
            Call::Run { file } => return self.run(file),
            Call::Hold { slot } => self.hold(slot)?,
            Call::Recall { slot } => self.recall(slot)?,
            Call::Drop { slot } => self.drop_slot(slot)?,
            Call::Question { case, question } => {
                return question.answer(&self.network, self.line(case)?.case())
            }
            Call::RunCount => return Ok(vec![self.runs]),
        }
        Ok(Figures::new())
    }

    pub fn network(&self) -> &Network {
        &self.network
    }

    /// Accepted steps since Start.
    pub fn runs(&self) -> u64 {
        self.runs
    }

    /// The live line.
    pub fn live(&self) -> &Line {
        &self.live
    }

    /// The line of a slot 1..6, or nothing where it is empty.
    pub fn slot(&self, slot: usize) -> Option<&Line> {
        self.slots[slot - 1].as_ref()
    }

    /// The case of a line worked out anew from the start case. Slow: for
    /// tests of the case that the line keeps.
    pub fn replay(&self, line: &Line) -> Case {
        line.replay(&self.network, &self.start)
    }

    fn sign(&mut self, segment: u64, limit: u64, compliance: i64) -> Result<(), u8> {
        let place = rows::judge_segment(&self.network, segment)?;
        rows::judge_sign(limit, compliance)?;
        let sign = Sign::of(limit, compliance);
        self.live.append(&self.network, Item::Sign { place, sign });
        Ok(())
    }

    fn meter(&mut self, segment: u64, setting: Setting) -> Result<(), u8> {
        let place = rows::judge_segment(&self.network, segment)?;
        rows::judge_meter(&self.network, place, setting)?;
        let item = Item::Meter { place, setting };
        self.live.append(&self.network, item);
        Ok(())
    }

    fn step(&mut self, arrivals: &[u32]) -> Result<(), u8> {
        rows::judge_step(&self.network, arrivals, self.live.case().steps, self.runs)?;
        let item = Item::Step(arrivals.into());
        self.live.append(&self.network, item);
        self.runs += 1;
        Ok(())
    }

    /// Row by row as single steps.
    fn run(&mut self, file: &[u8]) -> Result<Figures, u8> {
        let rows = survey::rows(file, self.network.segments.len() as u64)?;
        Ok(survey::run(rows, |row| self.step(row)))
    }

    fn hold(&mut self, slot: u64) -> Result<(), u8> {
        let place = rows::judge_hold(&self.slots, slot)?;
        self.slots[place] = Some(self.live.clone());
        Ok(())
    }

    fn recall(&mut self, slot: u64) -> Result<(), u8> {
        self.live = rows::judge_filled(&self.slots, slot)?.1.clone();
        Ok(())
    }

    fn drop_slot(&mut self, slot: u64) -> Result<(), u8> {
        let (place, _) = rows::judge_filled(&self.slots, slot)?;
        self.slots[place] = None;
        Ok(())
    }

    /// The line of case 0 (live) or 1..6.
    fn line(&self, case: u64) -> Result<&Line, u8> {
        match case {
            0 => Ok(&self.live),
            _ => rows::judge_filled(&self.slots, case).map(|(_, line)| line),
        }
    }
}
