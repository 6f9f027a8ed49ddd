//! Runs the tests and says in a line each how they went.

use crate::compare::{Difference, Inputs, Test, TESTS};
use crate::random::Random;
use crate::reached;
use std::{env, fs};

/// Inputs that a test tries at least, so that every damage has its turn.
const LEAST_INPUTS: u64 = 500;
/// Inputs between two progress lines of a fuzz run.
const PROGRESS: u64 = 1_000_000;
/// Rounds of a fuzz run for one turn of a test that is asked for by the line;
/// one that is asked for once has one turn in all.
const ROUNDS: usize = 10;
/// A fuzz run makes that many times fewer lists of calls than their share
/// says.
const LIST_WORTH: usize = 20;

/// How much a comparison is to try.
pub struct Asked {
    pub files: u64,
    pub steps: u64,
    pub lines: u64,
    /// Lists of calls on a study.
    pub lists: u64,
}

/// Every test for what is asked of it, and whether everything in the table of
/// what was reached came up. Answers how many tests failed.
pub fn compare(asked: &Asked, seed: u64) -> usize {
    let mut failed = 0;
    for (number, test) in TESTS.iter().enumerate() {
        failed += usize::from(!run(number, asked.of(test.inputs), seed));
    }
    let complete = reached::say();
    if !complete {
        println!("FAILED the table: something in it never came up");
    }
    finish(TESTS.len() + 1, failed + usize::from(!complete))
}

/// So many inputs of each test of calls on a study, and no other test.
/// Answers how many tests failed.
pub fn calls(lists: u64, seed: u64) -> usize {
    let of_calls = |number: &usize| matches!(TESTS[*number].inputs, Inputs::Lists(_));
    let tests: Vec<usize> = (0..TESTS.len()).filter(of_calls).collect();
    let passed = tests.iter().filter(|&&number| run(number, lists, seed));
    let failed = tests.len() - passed.count();
    reached::say();
    finish(tests.len(), failed)
}

/// The same inputs in turns by their shares, `total` in all; a test that has
/// failed is left out from then on. Answers how many tests failed.
pub fn fuzz(total: u64, seed: u64) -> usize {
    let turns = turns();
    let mut tried = [0; TESTS.len()];
    let mut outcomes: [Outcome; TESTS.len()] = [const { Ok(()) }; TESTS.len()];
    for input in 0..total {
        let number = turns[(input % turns.len() as u64) as usize];
        let done = matches!(TESTS[number].inputs, Inputs::Once) && tried[number] > 0;
        if outcomes[number].is_ok() && !done {
            outcomes[number] = try_one(number, seed, tried[number]);
            tried[number] += 1;
        }
        if (input + 1) % PROGRESS == 0 {
            println!("{} inputs, seed {seed}", input + 1);
        }
    }
    let mut failed = 0;
    for ((test, tried), outcome) in TESTS.iter().zip(tried).zip(outcomes) {
        failed += usize::from(!say(test, tried, outcome));
    }
    reached::say();
    finish(TESTS.len(), failed)
}

impl Asked {
    /// How many inputs that is for one test.
    fn of(&self, inputs: Inputs) -> u64 {
        let part = |asked: u64, share: u64| (asked * share).div_ceil(100).max(LEAST_INPUTS);
        match inputs {
            Inputs::Files(share) => part(self.files, share),
            Inputs::Steps(share) => part(self.steps, share),
            Inputs::Lists(share) => part(self.lists, share),
            Inputs::Lines => self.lines,
            Inputs::Once => 1,
        }
    }
}

/// The tests in the order of a fuzz run, which begins again after the last.
fn turns() -> Vec<usize> {
    let mut often = Vec::new();
    let mut seldom = Vec::new();
    for (number, test) in TESTS.iter().enumerate() {
        match test.inputs {
            Inputs::Files(share) | Inputs::Steps(share) => {
                often.extend(vec![number; share as usize])
            }
            Inputs::Lists(share) => often.extend(vec![number; share as usize / LIST_WORTH]),
            Inputs::Lines | Inputs::Once => seldom.push(number),
        }
    }
    let mut turns = often.repeat(ROUNDS);
    turns.extend(seldom);
    turns
}

/// One test. Answers whether it passed.
fn run(number: usize, inputs: u64, seed: u64) -> bool {
    let outcome = (0..inputs).try_for_each(|index| try_one(number, seed, index));
    say(&TESTS[number], inputs, outcome)
}

type Outcome = Result<(), Failure>;

struct Failure {
    difference: Difference,
    seed: u64,
    /// Which input of the test it was, from 0.
    index: u64,
}

fn try_one(number: usize, seed: u64, index: u64) -> Outcome {
    let mut random = Random::new(seed, number as u64, index);
    (TESTS[number].one)(&mut random, index).map_err(|difference| Failure {
        difference,
        seed,
        index,
    })
}

/// One line for the test; the input of a failure goes to a file. Answers
/// whether the test passed.
fn say(test: &Test, inputs: u64, outcome: Outcome) -> bool {
    let name = test.name;
    let Err(failure) = outcome else {
        let inputs = match inputs {
            1 => "1 input".to_string(),
            _ => format!("{inputs} inputs"),
        };
        println!("ok {name}: {inputs}");
        return true;
    };
    let Failure {
        difference,
        seed,
        index,
    } = failure;
    let file = format!("differs-{}-{seed}-{index}.bin", name.replace(' ', "-"));
    let path = env::temp_dir().join(file);
    let kept = match fs::write(&path, &difference.input) {
        Ok(()) => format!("input in {}", path.display()),
        Err(error) => format!("input not kept: {error}"),
    };
    let what = difference.what;
    println!("FAILED {name}: {what}; seed {seed}, input {index}; {kept}");
    false
}

fn finish(tests: usize, failed: usize) -> usize {
    println!("{} passed, {failed} failed", tests - failed);
    failed
}
