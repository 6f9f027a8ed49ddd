//! A study in lent arrays, laid out word by word.
//!
//! After the network's 2,560 words come the run count, the marks of the six
//! slots, eight free words and the arrangement number, then seven cases of
//! 16n + 8 words each. Case k has n speeds from speed kn on. Everything else is
//! garbage, words and speeds past the lengths too.

use crate::arrays::Arrays;
use crate::random::Random;
use crate::stored_case::{self, put_case, CaseDraft};
use crate::words::{put_network, NETWORK_WORDS};
use oracle::book::SLOTS;
use oracle::case::Case;
use oracle::file::Network;
pub use oracle::study::ARRANGEMENT;

/// The word of the run count; the marks of slots 1..6 follow it.
pub const RUNS: usize = NETWORK_WORDS;
/// The word of the arrangement number.
pub const ARRANGEMENT_WORD: usize = CASES - 1;
/// Most accepted steps since Start.
pub const MOST_RUNS: u64 = 1_000_000;
/// Words before the live case.
const CASES: usize = NETWORK_WORDS + 16;

/// A sound study.
pub struct Study {
    pub network: Network,
    pub runs: u64,
    /// Marks of the slots: 0 or 1.
    pub marks: [u64; SLOTS],
    /// The live case, then those of the slots; garbage where there is none.
    pub cases: Vec<Option<Case>>,
}

impl Study {
    /// Every slot is empty.
    pub fn live(network: Network, runs: u64, live: Case) -> Study {
        let mut cases = vec![None; SLOTS + 1];
        cases[0] = Some(live);
        Study {
            network,
            runs,
            marks: [0; SLOTS],
            cases,
        }
    }

    /// The study in arrays that have room for it, and some more.
    pub fn laid(&self, random: &mut Random) -> Arrays {
        let n = self.network.segments.len();
        let words = words_for(n) + random.edge(0, 300) as usize;
        let speeds = speeds_for(n) + random.edge(0, 20) as usize;
        let more = random.once_in(2);
        let mut arrays = Arrays::garbage(random, words, speeds, more);
        put_study(&self.network, self.runs, &self.marks, &mut arrays.words);
        for (number, case) in self.cases.iter().enumerate() {
            if let Some(case) = case {
                put_case_at(number, case, &mut arrays);
            }
        }
        arrays
    }
}

/// Puts all that stands before the cases; other words stay.
pub fn put_study(network: &Network, runs: u64, marks: &[u64; SLOTS], words: &mut [u64]) {
    put_network(network, words);
    words[RUNS] = runs;
    words[RUNS + 1..][..SLOTS].copy_from_slice(marks);
    words[ARRANGEMENT_WORD] = ARRANGEMENT;
}

/// Puts a case at the place of that number.
pub fn put_case_at(number: usize, case: &Case, arrays: &mut Arrays) {
    let n = case.segments.len();
    let words = &mut arrays.words[case_word(n, number)..];
    put_case(case, words, &mut arrays.speeds[number * n..]);
}

/// Puts a case with its damage and its free words at the place of that number.
pub fn put_draft_at(number: usize, draft: &CaseDraft, arrays: &mut Arrays) {
    let n = draft.n();
    let words = &mut arrays.words[case_word(n, number)..];
    words[..draft.words.len()].copy_from_slice(&draft.words);
    arrays.speeds[number * n..][..n].copy_from_slice(&draft.speeds);
}

/// The first word of a case.
pub fn case_word(n: usize, number: usize) -> usize {
    CASES + number * stored_case::words_for(n)
}

/// Words that n segments need.
pub fn words_for(n: usize) -> usize {
    case_word(n, SLOTS + 1)
}

/// Speeds that n segments need.
pub fn speeds_for(n: usize) -> usize {
    (SLOTS + 1) * n
}

/// What a word of the arrays is, for a reader.
pub fn word_name(words: &[u64], at: usize) -> String {
    let n = words.get(1).map_or(0, |&n| n.min(40) as usize);
    let name = match at {
        RUNS => "run count".to_string(),
        ARRANGEMENT_WORD => "arrangement number".to_string(),
        _ if at > RUNS && at <= RUNS + SLOTS => format!("mark of slot {}", at - RUNS),
        _ if at >= CASES && at < words_for(n) => {
            let length = stored_case::words_for(n);
            let (case, word) = ((at - CASES) / length, (at - CASES) % length);
            format!("{} in case {case}", stored_case::word_name(n, word))
        }
        _ => return format!("word {at}"),
    };
    format!("word {at}, {name}")
}
