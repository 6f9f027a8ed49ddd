//! Where the parts of a study stand in the two arrays.

use crate::book::SLOTS;
use crate::stored::NETWORK_WORDS;
use crate::stored_case::case_words;
use std::ops::Range;

/// The number of this arrangement. It rises when anything moves in the arrays,
/// so that an older study is not taken for one of these.
pub const ARRANGEMENT: u64 = 4;

/// The word of the run count.
pub const RUNS_AT: usize = NETWORK_WORDS;
/// Words of run count, marks and arrangement number, with free ones between.
pub const MARKS_WORDS: usize = 16;
/// The word of the arrangement number.
pub const ARRANGEMENT_AT: usize = CASES_AT - 1;
/// The first word of the live case.
const CASES_AT: usize = NETWORK_WORDS + MARKS_WORDS;

/// The word of the mark of slot 1..6.
pub fn mark_at(slot: usize) -> usize {
    RUNS_AT + slot
}

/// The places of a study of so many segments.
#[derive(Clone, Copy)]
pub struct Places {
    segments: usize,
}

impl Places {
    pub fn of(segments: usize) -> Places {
        Places { segments }
    }

    /// Words of case 0..6.
    pub fn case_words(self, case: usize) -> Range<usize> {
        let length = case_words(self.segments);
        let at = CASES_AT + case * length;
        at..at + length
    }

    /// Speeds of case 0..6.
    pub fn case_speeds(self, case: usize) -> Range<usize> {
        let at = case * self.segments;
        at..at + self.segments
    }

    /// Words that the study needs.
    pub fn words(self) -> usize {
        self.case_words(SLOTS).end
    }

    /// Speeds that the study needs.
    pub fn speeds(self) -> usize {
        self.case_speeds(SLOTS).end
    }
}
