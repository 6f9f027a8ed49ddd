//! Arrays of any content that a test is about to lend: sound studies, and such
//! that are damaged, changed at random, or garbage.

mod changed;
mod damaged;

use crate::arrays::Arrays;
use crate::cases::{self, MOST_STEPS};
use crate::networks::{network, Shape, ANY};
use crate::random::Random;
use crate::speeds::strew;
use crate::study::{Study, MOST_RUNS};
pub use changed::{filled_with_garbage, flipped, garbage, other_counts};
pub use damaged::{case, free_word, lengths, marks, network as damaged_network};
use oracle::book::SLOTS;
use oracle::case::Case;
use oracle::file::Network;

/// The study is not sound.
pub const NOT_SOUND: u64 = 12;
/// A line or a study has no step left.
const NO_MORE_STEPS: u64 = 16;

pub struct Made {
    pub what: String,
    /// The study before anything was done to it.
    pub study: Study,
    pub arrays: Arrays,
    /// What Sound must answer, where that is known without the oracle.
    pub number: Option<u64>,
}

/// The arrays of that index: every kind in turn.
pub fn any(random: &mut Random, index: u64) -> Made {
    let turn = index / 8;
    match index % 8 {
        0 => sound(random),
        1 | 2 => {
            let number = random.edge(0, SLOTS as u64) as usize;
            case(random, 2 * turn + index % 8 - 1, number)
        }
        3 => damaged_network(random, turn),
        4 => lengths(random, turn),
        5 => match turn % 5 {
            0 => free_word(random),
            1 => filled_with_garbage(random),
            _ => marks(random, turn),
        },
        6 => flipped(random, turn),
        _ => garbage(random, turn),
    }
}

/// A sound study with empty slots.
pub fn live(random: &mut Random) -> Made {
    let network = network(random, ANY);
    let live = any_case(random, &network);
    let study = Study::live(network, random.edge(0, MOST_RUNS), live);
    Made {
        what: "a sound study with empty slots".into(),
        arrays: study.laid(random),
        study,
        number: Some(0),
    }
}

/// A sound study as it is.
pub fn sound(random: &mut Random) -> Made {
    let study = any_of_shape(random, ANY);
    Made {
        what: "a sound study".into(),
        arrays: study.laid(random),
        study,
        number: Some(0),
    }
}

impl Made {
    /// Arrays that something makes unsound. In one array of four NaNs among
    /// the speeds, of any case, do so too.
    fn unsound(what: String, study: Study, mut arrays: Arrays, random: &mut Random) -> Made {
        if random.once_in(4) {
            strew(random, &mut arrays.speeds);
        }
        Made {
            what,
            study,
            arrays,
            number: Some(NOT_SOUND),
        }
    }

    /// What a step with right arrivals must be answered with, where that is
    /// known without the oracle.
    pub fn step_number(&self) -> Option<u64> {
        let live = self.study.cases[0].as_ref().expect("a live case");
        let left = live.steps < MOST_STEPS && self.study.runs < MOST_RUNS;
        self.number.map(|number| match number {
            0 if !left => NO_MORE_STEPS,
            number => number,
        })
    }
}

/// A sound study of a network of that shape.
fn any_of_shape(random: &mut Random, shape: Shape) -> Study {
    let network = network(random, shape);
    any_study(random, network)
}

/// Any sound study of the network: the cases have nothing to do with one
/// another, and the live one may have taken all its steps.
pub fn any_study(random: &mut Random, network: Network) -> Study {
    let mut live = any_case(random, &network);
    if random.once_in(8) {
        live.steps = MOST_STEPS;
    }
    let mut study = Study::live(network, random.edge(0, MOST_RUNS), live);
    fill_slots(random, &mut study);
    study
}

/// Marks some of the slots as filled, with any sound cases in them. An empty
/// one may hold a case or garbage.
pub fn fill_slots(random: &mut Random, study: &mut Study) {
    let filled = random.below(1 << SLOTS);
    for slot in 0..SLOTS {
        study.marks[slot] = filled >> slot & 1;
        if study.marks[slot] == 1 || random.once_in(2) {
            study.cases[slot + 1] = Some(any_case(random, &study.network));
        }
    }
}

fn any_case(random: &mut Random, network: &Network) -> Case {
    match random.once_in(2) {
        true => cases::wild(random, network),
        false => cases::calm(random, network),
    }
}
