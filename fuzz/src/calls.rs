//! Calls on a study: such as the tests of the harness make, right ones or
//! not, and calls with any arguments.

use crate::files::{changed, valid};
use crate::input::Input;
use harness::calls::{Call, Kind, Scene, Start, KINDS};
use harness::compare::followed::Followed;
use harness::study::RUNS;
use oracle::book::{Book, SLOTS};
use oracle::file::Network;
use oracle::study;

/// The next call on the study. A right one suits what the arrays hold, or the
/// given network where they hold no sound study.
pub fn next(input: &mut Input, followed: &Followed, network: &Network) -> Call {
    let kind = &KINDS[input.below(KINDS.len())];
    let way = input.below(4);
    if way > 1 {
        return any(input, kind, network);
    }
    let (words, speeds) = followed.lent();
    let stored = match followed.book() {
        Some(_) => None,
        None => study::read(words, speeds).ok().map(|study| study.network),
    };
    let of_book = followed.book().map(Book::network);
    let filled = |slot| words.get(RUNS + 1 + slot) == Some(&1);
    let scene = Scene {
        network: of_book.or(stored.as_ref()).unwrap_or(network),
        filled: std::array::from_fn::<_, SLOTS, _>(filled),
        brought: std::slice::from_ref(network),
    };
    scene.suited(kind, &mut input.random(), way == 0)
}

/// A call whose arguments are any numbers. A Start is on a changed file of
/// this network or of another.
fn any(input: &mut Input, kind: &Kind, network: &Network) -> Call {
    let other = match input.below(4) {
        0 => {
            let mut random = input.random();
            Some(valid(input, &mut random))
        }
        _ => None,
    };
    let network = other.as_ref().unwrap_or(network);
    let scene = Scene {
        network,
        filled: [false; SLOTS],
        brought: std::slice::from_ref(network),
    };
    match scene.with_any(kind, &mut || input.number()) {
        Call::Start(start) => Call::Start(Start {
            file: changed(input, network),
            ..start
        }),
        call => call,
    }
}
