//! Sound studies with one damage that makes them unsound, or that nobody
//! looks at.

use super::{any_of_shape, any_study, Made};
use crate::cases::wild;
use crate::damages::{in_turn, CASE, MARKS, STORED};
use crate::networks::{self, ANY};
use crate::random::Random;
use crate::stored_case::CaseDraft;
use crate::study::{case_word, put_draft_at, speeds_for, words_for, ARRANGEMENT_WORD, RUNS};
use crate::words::{Stored, NETWORK_WORDS};

/// Every damage to a case in turn, at the case of that number. Nobody looks
/// at that of an empty slot.
pub fn case(random: &mut Random, turn: u64, number: usize) -> Made {
    let damage = in_turn(&CASE, turn);
    let network = networks::network(random, damage.shape());
    let sound = wild(random, &network);
    let mut draft = CaseDraft::new(network, sound, random);
    let place = damage.place(&draft.network, random);
    (damage.apply)(&mut draft, place, random);
    let mut study = any_study(random, draft.network.clone());
    let mut arrays = study.laid(random);
    put_draft_at(number, &draft, &mut arrays);
    study.cases[number] = Some(draft.case);
    let what = format!("{} in case {number}", damage.name);
    match number == 0 || study.marks[number - 1] == 1 {
        true => Made::unsound(what, study, arrays, random),
        false => Made {
            what,
            study,
            arrays,
            number: Some(0),
        },
    }
}

/// Every damage to a stored network in turn.
pub fn network(random: &mut Random, turn: u64) -> Made {
    let damage = in_turn(&STORED, turn);
    let study = any_of_shape(random, damage.shape());
    let mut arrays = study.laid(random);
    let mut stored = Stored {
        network: study.network.clone(),
        words: arrays.words.into(),
    };
    let place = damage.place(&stored.network, random);
    (damage.apply)(&mut stored, place, random);
    arrays.words = stored.words.into();
    let what = format!("{} in the network", damage.name);
    Made::unsound(what, study, arrays, random)
}

/// Exactly enough, a word or a speed too few, or many.
pub fn lengths(random: &mut Random, turn: u64) -> Made {
    let study = any_of_shape(random, ANY);
    let mut arrays = study.laid(random);
    let n = study.network.segments.len();
    let (words, speeds) = (words_for(n), speeds_for(n));
    (arrays.lent_words, arrays.lent_speeds) = match turn % 10 {
        0 | 1 => (words, speeds),
        2 => (words - 1, speeds),
        3 => (words, speeds - 1),
        4 => (NETWORK_WORDS, speeds),
        5 => (NETWORK_WORDS - 1, speeds),
        6 => (0, 0),
        7 => (case_word(n, 1), n),
        8 => (random.below(words as u64) as usize, speeds),
        _ => (words, random.below(speeds as u64) as usize),
    };
    let (words, speeds) = (arrays.lent_words, arrays.lent_speeds);
    if random.once_in(2) {
        // They end there, so that a memory checker sees any touch past it.
        arrays.words = arrays.words[..words].into();
        arrays.speeds = arrays.speeds[..speeds].into();
    }
    let what = format!("{words} words and {speeds} speeds for {n} segments");
    match turn % 10 {
        0 | 1 => Made {
            what,
            study,
            arrays,
            number: Some(0),
        },
        _ => Made::unsound(what, study, arrays, random),
    }
}

/// Run count, a mark or the arrangement number, in turn.
pub fn marks(random: &mut Random, turn: u64) -> Made {
    let damage = in_turn(&MARKS, turn);
    let study = any_of_shape(random, ANY);
    let mut arrays = study.laid(random);
    (damage.apply)(&mut arrays, 0, random);
    Made::unsound(damage.name.into(), study, arrays, random)
}

/// A free word between marks and arrangement number, which nobody looks at.
pub fn free_word(random: &mut Random) -> Made {
    let study = any_of_shape(random, ANY);
    let mut arrays = study.laid(random);
    let at = random.between(RUNS as u64 + 7, ARRANGEMENT_WORD as u64 - 1);
    arrays.words[at as usize] = random.number();
    Made {
        what: format!("word {at} any number"),
        study,
        arrays,
        number: Some(0),
    }
}
