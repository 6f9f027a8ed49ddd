//! A whole study in lent arrays: network, run count, marks of the slots, the
//! live case and the held ones.
//!
//! Word 2560 is the run count, word 2560 + k the mark of slot k, 0 for empty
//! and 1 for filled, and word 2575 the arrangement number. Case k (0 is the
//! live one) has 16n + 8 words from word 2576 + k(16n + 8) on and n speeds from
//! speed kn on. An empty slot's words and speeds are not read.

mod calls;
mod places;

use crate::book::rows::RUNS;
use crate::book::{Book, SLOTS};
use crate::case::Case;
use crate::file;
use crate::network::Network;
use crate::refusal::{BUFFER, NOT_SOUND};
use crate::stored;
use crate::stored_case;
pub use calls::call;
use places::Places;
pub use places::ARRANGEMENT;

/// Everything that the arrays of a sound study hold.
#[derive(Clone, Debug, PartialEq)]
pub struct Study {
    pub network: Network,
    /// Accepted steps since Start.
    pub runs: u64,
    pub live: Case,
    /// The case of each filled slot.
    pub slots: [Option<Case>; SLOTS],
}

impl Study {
    /// What the arrays should hold by the book.
    pub fn of_book(book: &Book) -> Study {
        let slot = |slot| book.slot(slot + 1).map(|line| line.case().clone());
        Study {
            network: book.network().clone(),
            runs: book.runs(),
            live: book.live().case().clone(),
            slots: std::array::from_fn::<_, SLOTS, _>(slot),
        }
    }
}

/// What the arrays hold, or 12 where it is not sound.
pub fn read(words: &[u64], speeds: &[f64]) -> Result<Study, u8> {
    let judged = judge(words, speeds)?;
    let slots = judged
        .slots
        .map(|slot| slot.and_then(|case| judged.case(words, speeds, case)));
    Ok(Study {
        network: judged.network,
        runs: judged.runs,
        live: judged.live,
        slots,
    })
}

/// 12 where the arrays do not hold a sound study, else 0.
pub fn number(words: &[u64], speeds: &[f64]) -> u8 {
    judge(words, speeds).err().unwrap_or(0)
}

/// Write: the stored network's file for a buffer of so many bytes, or the
/// first of 12 and 24.
pub fn write(words: &[u64], speeds: &[f64], room: usize) -> Result<Vec<u8>, u8> {
    let file = file::write(&judge(words, speeds)?.network);
    match file.len() <= room {
        true => Ok(file),
        false => Err(BUFFER),
    }
}

/// A sound study as far as most calls look at it. Held cases are judged, but
/// only the live one is kept.
struct Judged {
    places: Places,
    network: Network,
    runs: u64,
    live: Case,
    /// The number of the case in each filled slot.
    slots: [Option<usize>; SLOTS],
}

impl Judged {
    /// Case 0..6.
    fn case(&self, words: &[u64], speeds: &[f64], case: usize) -> Option<Case> {
        let own_words = &words[self.places.case_words(case)];
        let own_speeds = &speeds[self.places.case_speeds(case)];
        stored_case::read(&self.network, own_words, own_speeds)
    }
}

/// The paper's "Sound study", or 12.
fn judge(words: &[u64], speeds: &[f64]) -> Result<Judged, u8> {
    judged(words, speeds).ok_or(NOT_SOUND)
}

fn judged(words: &[u64], speeds: &[f64]) -> Option<Judged> {
    let network = stored::read(words)?;
    let places = Places::of(network.segments.len());
    if words.len() < places.words() || speeds.len() < places.speeds() {
        return None;
    }
    if words[places::ARRANGEMENT_AT] != ARRANGEMENT {
        return None;
    }
    let runs = words[places::RUNS_AT];
    let slots = marked(words)?;
    let held_sound = slots.iter().flatten().all(|&case| {
        let own_words = &words[places.case_words(case)];
        stored_case::sound(&network, own_words, &speeds[places.case_speeds(case)])
    });
    if runs > RUNS || !held_sound {
        return None;
    }
    let live_speeds = &speeds[places.case_speeds(0)];
    let live = stored_case::read(&network, &words[places.case_words(0)], live_speeds)?;
    Some(Judged {
        places,
        network,
        runs,
        live,
        slots,
    })
}

/// The case of each slot that is marked as filled, or nothing where a mark is
/// neither 0 nor 1.
fn marked(words: &[u64]) -> Option<[Option<usize>; SLOTS]> {
    let mut slots = [None; SLOTS];
    for slot in 1..=SLOTS {
        slots[slot - 1] = match words[places::mark_at(slot)] {
            0 => None,
            1 => Some(slot),
            _ => return None,
        };
    }
    Some(slots)
}
