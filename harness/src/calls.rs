//! Calls on a study, with what either side answers.

mod drawn;
mod engine_side;
mod oracle_side;

pub use drawn::{good_start, Kind, Scene, KINDS};
pub use engine_side::ask_engine;
pub use oracle::book::Question;
pub use oracle_side::{ask_arrays, ask_book, begin_book};

use oracle::case::Setting;

/// One call with its arguments. Segments count from 1; case 0 is the live
/// one. A room is how much is lent for figures (words) or a file (bytes).
#[derive(Clone, Debug)]
pub enum Call {
    Sound,
    Start(Start),
    Sign {
        segment: u64,
        limit: u64,
        compliance: i64,
    },
    Meter {
        segment: u64,
        setting: Setting,
    },
    /// Arrivals in mv.
    Step(Box<[u32]>),
    /// The rows of a survey file.
    Run {
        file: Box<[u8]>,
        room: usize,
    },
    Hold(u64),
    Recall(u64),
    Drop(u64),
    Question {
        case: u64,
        question: Question,
        room: usize,
    },
    RunCount {
        room: usize,
    },
    Write {
        room: usize,
    },
}

/// Arguments of Start. Every number of the lists fits 32 bits.
#[derive(Clone, Debug)]
pub struct Start {
    pub file: Box<[u8]>,
    /// Initial mv.
    pub counts: Vec<u64>,
    /// Initial speeds, in whole m/h.
    pub speeds: Vec<u64>,
    /// Initial queues, in mv.
    pub queues: Vec<u64>,
}

/// The number that a call answers, and its buffers afterwards.
#[derive(Clone, Debug, PartialEq, Eq)]
pub struct Answer {
    pub number: u64,
    pub figures: Box<[u64]>,
    pub bytes: Box<[u8]>,
}

impl Call {
    /// Whether it leaves the study's arrays even where it is accepted.
    pub fn only_asks(&self) -> bool {
        matches!(
            self,
            Call::Sound | Call::Question { .. } | Call::RunCount { .. } | Call::Write { .. }
        )
    }
}

/// What stands in a lent buffer before the call.
const FILL: u64 = 0x5afe_9a2d_5afe_9a2d;
/// Figures of a run: rows taken, and the number that stopped it or 0.
pub const RUN_FIGURES: usize = 2;
/// Figures of the report of a case, and of a segment.
pub const CASE_FIGURES: usize = 6;
pub const SEGMENT_FIGURES: usize = 7;
/// Whether a queue never drains, and its steps.
const DRAIN_FIGURES: usize = 2;
/// A buffer too short.
const BUFFER: u64 = 24;

/// How many figures answer it.
pub fn figures_of(question: &Question) -> usize {
    match question {
        Question::Case => CASE_FIGURES,
        Question::Segment(_) => SEGMENT_FIGURES,
        Question::Drain(_) => DRAIN_FIGURES,
    }
}

impl Answer {
    /// The call's buffers as they are lent, each exactly as long as its room.
    pub fn lent(call: &Call) -> Answer {
        let (figures, bytes) = match *call {
            Call::Run { room, .. } | Call::Question { room, .. } | Call::RunCount { room } => {
                (room, 0)
            }
            Call::Write { room } => (0, room),
            _ => (0, 0),
        };
        Answer {
            number: 0,
            figures: vec![FILL; figures].into(),
            bytes: vec![FILL as u8; bytes].into(),
        }
    }

    /// How this answer of the engine differs from the expected one, in words.
    pub fn beside(&self, expected: &Answer) -> String {
        let numbers = (expected.number, self.number);
        let figures = (&expected.figures, &self.figures);
        match (numbers.0 == numbers.1, figures.0 == figures.1) {
            (false, _) => format!("expected {}, engine {}", numbers.0, numbers.1),
            (true, false) => format!("expected {:?}, engine {:?}", figures.0, figures.1),
            (true, true) => "other bytes written than expected".into(),
        }
    }

    /// The figures of a report from the buffer's beginning on, or 24.
    pub(crate) fn give(&mut self, figures: &[u64]) {
        match self.figures.get_mut(..figures.len()) {
            Some(room) => room.copy_from_slice(figures),
            None => self.number = BUFFER,
        }
    }

    /// The same with these figures.
    pub(crate) fn given(&self, figures: &[u64]) -> Answer {
        let mut answer = self.clone();
        answer.give(figures);
        answer
    }

    /// A file likewise.
    pub(crate) fn give_bytes(&mut self, file: &[u8]) {
        match self.bytes.get_mut(..file.len()) {
            Some(room) => room.copy_from_slice(file),
            None => self.number = BUFFER,
        }
    }
}
