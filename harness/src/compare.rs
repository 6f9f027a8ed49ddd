//! The tests. Each makes one input after another and asks both sides.

mod both;
mod changed;
pub mod curves;
mod damaged;
pub mod followed;
mod lengths;
mod lines;
mod lists;
mod means;
mod million;
mod random_bytes;
mod refused;
mod runs;
mod steps;
mod studies;
pub mod surveys;
mod tallies;
mod valid;
mod write;

use crate::engine::asked;
use crate::random::Random;
use crate::reached;
use oracle::file;

/// A buffer too short for what is put into it.
const BUFFER: u64 = 24;

/// Where engine, oracle and expectation differ.
pub struct Difference {
    /// The input in words, and the answers.
    pub what: String,
    /// The input's bytes.
    pub input: Vec<u8>,
}

impl Difference {
    /// The same with what was tried said first.
    fn of(self, tried: &str) -> Difference {
        Difference {
            what: format!("{tried}: {}", self.what),
            ..self
        }
    }
}

pub struct Test {
    pub name: &'static str,
    pub inputs: Inputs,
    /// Makes and tries the input of that index (from 0).
    pub one: fn(&mut Random, u64) -> Result<(), Difference>,
}

/// How many inputs a test tries.
#[derive(Clone, Copy)]
pub enum Inputs {
    /// So many for each hundred files asked for. The tests of whole files
    /// add up to a hundred.
    Files(u64),
    /// So many for each hundred steps asked for.
    Steps(u64),
    /// One for each line asked for.
    Lines,
    /// So many for each hundred lists of calls asked for.
    Lists(u64),
    /// One.
    Once,
}

pub const TESTS: &[Test] = &[
    Test {
        name: "valid files",
        inputs: Inputs::Files(20),
        one: valid::one,
    },
    Test {
        name: "damaged files",
        inputs: Inputs::Files(30),
        one: damaged::one,
    },
    Test {
        name: "lengths",
        inputs: Inputs::Files(15),
        one: lengths::one,
    },
    Test {
        name: "random bytes",
        inputs: Inputs::Files(15),
        one: random_bytes::one,
    },
    Test {
        name: "changed bytes",
        inputs: Inputs::Files(20),
        one: changed::one,
    },
    Test {
        name: "curves",
        inputs: Inputs::Files(5),
        one: curves::one,
    },
    Test {
        name: "write",
        inputs: Inputs::Files(10),
        one: write::one,
    },
    Test {
        name: "survey files",
        inputs: Inputs::Files(10),
        one: surveys::one,
    },
    Test {
        name: "random steps",
        inputs: Inputs::Steps(100),
        one: steps::one,
    },
    Test {
        name: "lines of 2000 steps",
        inputs: Inputs::Lines,
        one: lines::one,
    },
    Test {
        name: "quiet lines",
        inputs: Inputs::Steps(5),
        one: lines::quiet::one,
    },
    Test {
        name: "an emptying road",
        inputs: Inputs::Once,
        one: lines::quiet::worked::one,
    },
    Test {
        name: "refused steps",
        inputs: Inputs::Steps(50),
        one: refused::one,
    },
    Test {
        name: "runs",
        inputs: Inputs::Steps(50),
        one: runs::one,
    },
    Test {
        name: "means at their bounds",
        inputs: Inputs::Steps(5),
        one: means::one,
    },
    Test {
        name: "tallies",
        inputs: Inputs::Once,
        one: tallies::one,
    },
    Test {
        name: "lists of 60 calls",
        inputs: Inputs::Lists(100),
        one: lists::one,
    },
    Test {
        name: "studies of any content",
        inputs: Inputs::Lists(160),
        one: studies::one,
    },
    Test {
        name: "a million steps",
        inputs: Inputs::Once,
        one: million::one,
    },
];

/// Both sides give the file the expected number.
fn expect_number(file: &[u8], expected: u64, what: &str) -> Result<(), Difference> {
    let (function, engine) = asked!(network_check(file));
    let oracle = u64::from(file::check(file));
    if engine == expected && oracle == expected {
        reached::note(function, engine);
        return expect_place(file, what);
    }
    Err(Difference {
        what: format!("{what}: expected {expected}, engine {engine}, oracle {oracle}"),
        input: file.to_vec(),
    })
}

/// Both sides find the file wrong at the same place. The engine fills four of
/// the places that it is lent, or none where there are fewer.
fn expect_place(file: &[u8], what: &str) -> Result<(), Difference> {
    let oracle = file::place(file);
    let figures = [
        usize::from(oracle.number),
        oracle.part,
        oracle.rule,
        oracle.byte,
    ];
    for length in [3, 4, 5] {
        let mut expected = vec![u64::MAX; length];
        let answer = if length < 4 { BUFFER } else { 0 };
        if answer == 0 {
            expected[..4].copy_from_slice(&figures.map(|figure| figure as u64));
        }
        let mut place = vec![u64::MAX; length];
        let (function, engine) = asked!(network_place(file, &mut place));
        if engine != answer || place != expected {
            return Err(Difference {
                what: format!("{what}: place {expected:?}, engine {engine} and {place:?}"),
                input: file.to_vec(),
            });
        }
        reached::note(function, engine);
    }
    reached::places::note(file, &oracle);
    Ok(())
}

/// Both sides give the file the same number.
pub fn expect_agreement(file: &[u8], what: &str) -> Result<(), Difference> {
    let expected = u64::from(file::check(file));
    expect_number(file, expected, what)
}
