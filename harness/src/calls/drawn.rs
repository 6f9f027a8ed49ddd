//! Random calls on a study: right ones, such that some row refuses them, and
//! such with any arguments.

mod arguments;
mod source;
mod starts;

use super::{Call, Question};
use crate::random::Random;
use oracle::book::SLOTS;
use oracle::case::Setting;
use oracle::file::Network;
use source::{Source, Wrong};
pub use starts::good_start;

/// A kind of call.
pub struct Kind {
    /// How many of a hundred calls of a list it is, about.
    share: u64,
    /// Arguments that can be wrong, beside the study's arrays.
    arguments: u64,
    draw: fn(&Scene, &mut Source) -> Call,
}

/// Every kind of call. Start is the first.
pub const KINDS: &[Kind] = &[
    kind(4, 4, |scene, from| Call::Start(scene.start(from))),
    kind(2, 0, |_, _| Call::Sound),
    kind(8, 3, |scene, from| scene.sign(from)),
    kind(2, 1, |scene, from| scene.meter(from, |_, _| Setting::Open)),
    kind(4, 2, |scene, from| {
        scene.meter(from, |from, most| from.fixed(most))
    }),
    kind(6, 5, |scene, from| {
        scene.meter(from, |from, most| from.alinea(most))
    }),
    kind(30, 1, |scene, from| Call::Step(scene.arrivals(from))),
    kind(6, 3, |scene, from| scene.run(from)),
    kind(8, 1, |scene, from| Call::Hold(scene.slot(from, false))),
    kind(7, 1, |scene, from| Call::Recall(scene.slot(from, true))),
    kind(4, 1, |scene, from| Call::Drop(scene.slot(from, true))),
    kind(6, 2, |scene, from| scene.ask(from, |_| Question::Case)),
    kind(7, 3, |scene, from| {
        scene.ask(from, |from| Question::Segment(scene.segment(from)))
    }),
    kind(5, 3, |scene, from| {
        scene.ask(from, |from| Question::Drain(scene.ramp(from)))
    }),
    kind(3, 1, |_, from| Call::RunCount { room: from.room(1) }),
    kind(3, 1, |scene, from| Call::Write {
        room: from.room(scene.file_length()),
    }),
];

/// Its share, its arguments, and how it is drawn.
const fn kind(share: u64, arguments: u64, draw: fn(&Scene, &mut Source) -> Call) -> Kind {
    Kind {
        share,
        arguments,
        draw,
    }
}

/// What calls are made for.
pub struct Scene<'a> {
    /// The network of the study.
    pub network: &'a Network,
    /// Slots that are filled.
    pub filled: [bool; SLOTS],
    /// Networks that a Start may bring.
    pub brought: &'a [Network],
}

impl Scene<'_> {
    /// Any call by its share.
    pub fn any(&self, random: &mut Random, right: bool) -> Call {
        let all = KINDS.iter().map(|kind| kind.share).sum();
        let mut turn = random.below(all);
        for kind in KINDS {
            if turn < kind.share {
                return self.suited(kind, random, right);
            }
            turn -= kind.share;
        }
        unreachable!("below the sum of all shares")
    }

    /// A call of that kind. A right one is accepted by a study of this scene
    /// wherever one can be; any other has something wrong, mostly.
    pub fn suited(&self, kind: &Kind, random: &mut Random, right: bool) -> Call {
        let wrong = Wrong::of(random, kind.arguments, right);
        (kind.draw)(self, &mut Source::Suited { random, wrong })
    }

    /// A call of that kind whose arguments are any numbers.
    pub fn with_any(&self, kind: &Kind, next: &mut dyn FnMut() -> u64) -> Call {
        (kind.draw)(self, &mut Source::Any(next))
    }
}
