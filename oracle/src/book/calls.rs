//! The calls on a study and their answers.

use super::Question;
use crate::case::Setting;

/// Lengths of the two arrays that the caller lends.
#[derive(Clone, Copy, Debug)]
pub struct Lengths {
    /// 64-bit words.
    pub words: usize,
    /// Binary64 numbers.
    pub speeds: usize,
}

/// Arguments of Start.
#[derive(Clone, Copy, Debug)]
pub struct Start<'a> {
    pub file: &'a [u8],
    /// Initial mv in the segments.
    pub counts: &'a [u64],
    /// Initial speeds, in whole m/h.
    pub speeds: &'a [u64],
    /// Initial mv in the queues.
    pub queues: &'a [u64],
}

/// A call on a study with its arguments. Segments count from 1; case 0 is the
/// live one.
#[derive(Clone, Copy, Debug)]
pub enum Call<'a> {
    Start(Start<'a>),
    /// Limit in km/h, 0 for dark; compliance in thousandths.
    Sign {
        segment: u64,
        limit: u64,
        compliance: i64,
    },
    Meter {
        segment: u64,
        setting: Setting,
    },
    /// Arrivals in mv, one for each segment.
    Step {
        arrivals: &'a [u32],
    },
    /// The rows of a survey file as steps. Figures: rows taken, and the number
    /// that stopped the run or 0.
    Run {
        file: &'a [u8],
    },
    Hold {
        slot: u64,
    },
    Recall {
        slot: u64,
    },
    Drop {
        slot: u64,
    },
    Question {
        case: u64,
        question: &'a Question,
    },
    /// Accepted steps since Start.
    RunCount,
}

/// What an accepted call gives: figures in the paper's order, none where it
/// only changes the study.
pub type Figures = Vec<u64>;
