//! Sound studies with something changed at random, and garbage. What is to be
//! answered is the oracle's to say.

use super::{any_of_shape, Made};
use crate::arrays::Arrays;
use crate::networks::ANY;
use crate::random::Random;
use crate::speeds::{no_number, unread};
use crate::study::{case_word, words_for, Study, ARRANGEMENT, ARRANGEMENT_WORD, RUNS};
use crate::words::{field_word, garbage as garbage_words};
use oracle::book::SLOTS;

/// Speeds that look odd: infinities, −0, subnormal, just outside.
const ODD: [f64; 8] = [
    f64::INFINITY,
    f64::NEG_INFINITY,
    -0.0,
    0.0,
    5e-324,
    -2.2e-308,
    999.999_999_999,
    200_000.000_000_1,
];

/// One to three changes to a sound study.
pub fn flipped(random: &mut Random, turn: u64) -> Made {
    let study = any_of_shape(random, ANY);
    let mut arrays = study.laid(random);
    let n = study.network.segments.len();
    let mut what = Vec::new();
    for _ in 0..=turn % 3 {
        what.push(change(random, &mut arrays, n));
    }
    changed(what.join(", "), study, arrays)
}

/// Another n, c or version, so that words ignored before are read, or a chain
/// is taken for one of the other version.
pub fn other_counts(random: &mut Random) -> Made {
    let study = any_of_shape(random, ANY);
    let mut arrays = study.laid(random);
    match random.below(3) {
        0 => arrays.words[1] = random.edge(1, 40),
        1 => arrays.words[2] = random.edge(1, 8),
        _ => arrays.words[7] = 3 - arrays.words[7],
    }
    changed("another n, c or version".into(), study, arrays)
}

/// A slot that is marked as filled with garbage in it.
pub fn filled_with_garbage(random: &mut Random) -> Made {
    let mut study = any_of_shape(random, ANY);
    let slot = random.between(1, SLOTS as u64) as usize;
    study.marks[slot - 1] = 1;
    study.cases[slot] = None;
    let arrays = study.laid(random);
    changed("garbage in a filled slot".into(), study, arrays)
}

/// A sound study up to some word and garbage after it; its speeds are kept or
/// garbage too. The arrangement number may stay, so that more is looked at.
pub fn garbage(random: &mut Random, turn: u64) -> Made {
    let study = any_of_shape(random, ANY);
    let mut arrays = study.laid(random);
    let n = study.network.segments.len();
    let kept = match turn % 8 {
        0 | 1 => 0,
        2 => 1,
        3 => 16,
        4 => field_word(0, 0),
        5 => RUNS,
        6 => case_word(n, 0),
        _ => case_word(n, random.below(SLOTS as u64 + 1) as usize),
    };
    let any = turn.is_multiple_of(2);
    let words = &mut arrays.words[kept..];
    match any {
        true => words.fill_with(|| random.number()),
        false => words.copy_from_slice(&garbage_words(random, words.len())),
    }
    if random.once_in(2) {
        arrays.words[ARRANGEMENT_WORD] = ARRANGEMENT;
    }
    if random.once_in(2) {
        arrays.speeds = unread(random, arrays.speeds.len()).into();
    }
    changed(format!("garbage from word {kept} on"), study, arrays)
}

fn changed(what: String, study: Study, arrays: Arrays) -> Made {
    Made {
        what,
        study,
        arrays,
        number: None,
    }
}

/// A bit of a word, a word that is any number, another n, or a speed.
fn change(random: &mut Random, arrays: &mut Arrays, n: usize) -> String {
    let case = random.below(SLOTS as u64 + 1) as usize;
    let all = words_for(n);
    match random.below(8) {
        0 | 1 => flip(random, arrays, case_word(n, case), case_word(n, case + 1)),
        2 => flip(random, arrays, RUNS, case_word(n, 0)),
        3 => flip(random, arrays, field_word(0, 0), field_word(n, 0)),
        4 => flip(random, arrays, 0, all),
        5 => {
            let at = random.between(RUNS as u64, all as u64 - 1) as usize;
            arrays.words[at] = garbage_words(random, 1)[0];
            format!("word {at} any number")
        }
        6 => {
            arrays.words[1] = random.edge(1, 40);
            "another n".to_string()
        }
        _ => {
            let at = case * n + random.below(n as u64) as usize;
            speed(random, arrays, at)
        }
    }
}

/// One bit in the words `low..high`, low bits often.
fn flip(random: &mut Random, arrays: &mut Arrays, low: usize, high: usize) -> String {
    let at = random.between(low as u64, high as u64 - 1) as usize;
    let highest = random.one_of(&[4, 16, 40, 64]);
    let bit = random.below(highest);
    arrays.words[at] ^= 1 << bit;
    format!("bit {bit} of word {at} flipped")
}

/// A bit of a speed flipped, any bits, a NaN, or an odd number.
fn speed(random: &mut Random, arrays: &mut Arrays, at: usize) -> String {
    arrays.speeds[at] = match random.below(5) {
        0 => f64::from_bits(random.number()),
        1 => no_number(random),
        2 => ODD[random.below(ODD.len() as u64) as usize],
        _ => f64::from_bits(arrays.speeds[at].to_bits() ^ 1 << random.below(64)),
    };
    format!("speed {at} with bits {:#x}", arrays.speeds[at].to_bits())
}
