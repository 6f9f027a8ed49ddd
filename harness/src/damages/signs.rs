//! Row 12: signs that no call permits.

use super::stored::outside;
use super::{unsound, Damage, Part};
use crate::random::Random;
use crate::stored_case::{state_word, CaseDraft, COMPLIANCE, LIMIT};

/// Compliance + 500 at its most.
const HIGHEST: u64 = 1_000;

pub const DAMAGES: &[Damage<CaseDraft>] = &[
    unsound("limit too low", Part::Record, |draft, place, random| {
        show(draft, place, random);
        draft.words[state_word(place, LIMIT)] = random.edge(1, 19)
    }),
    unsound("limit too high", Part::Record, |draft, place, random| {
        show(draft, place, random);
        let limit = &mut draft.words[state_word(place, LIMIT)];
        *limit = outside(*limit, 0, 200, random)
    }),
    unsound("compliance", Part::Record, |draft, place, random| {
        show(draft, place, random);
        let compliance = &mut draft.words[state_word(place, COMPLIANCE)];
        *compliance = outside(*compliance, 0, HIGHEST, random)
    }),
    unsound(
        "dark with compliance",
        Part::Record,
        |draft, place, random| {
            let words = &mut draft.words;
            words[state_word(place, LIMIT)] = 0;
            words[state_word(place, COMPLIANCE)] = random.edge(1, HIGHEST)
        },
    ),
    unsound("dark with compliance 0", Part::Record, |draft, place, _| {
        let words = &mut draft.words;
        words[state_word(place, LIMIT)] = 0;
        words[state_word(place, COMPLIANCE)] = 500
    }),
    unsound(
        "dark with any word",
        Part::Record,
        |draft, place, random| {
            let words = &mut draft.words;
            words[state_word(place, LIMIT)] = 0;
            words[state_word(place, COMPLIANCE)] = outside(0, 0, 0, random)
        },
    ),
];

/// Any shown sign.
fn show(draft: &mut CaseDraft, place: usize, random: &mut Random) {
    draft.words[state_word(place, LIMIT)] = random.edge(20, 200);
    draft.words[state_word(place, COMPLIANCE)] = random.edge(0, HIGHEST);
}
