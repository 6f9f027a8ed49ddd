//! Compares the engine with the oracle.
//!
//! `compare [--files N] [--steps N] [--lines K] [--lists N] [--seed S]` runs
//! every test, `compare --fuzz N [--seed S]` runs N inputs of all tests in
//! turns, `compare --calls N [--seed S]` runs N inputs of each test of calls
//! on a study.

use harness::runner::{self, Asked};
use std::process::ExitCode;

const DEFAULT_ASKED: Asked = Asked {
    files: 200_000,
    steps: 20_000,
    lines: 50,
    lists: 10_000,
};
const DEFAULT_SEED: u64 = 24_301;

fn main() -> ExitCode {
    let Some(wish) = read_arguments() else {
        eprintln!("usage: compare [--files N] [--steps N] [--lines K] [--lists N] [--seed S]");
        eprintln!("       compare --fuzz N [--seed S]");
        eprintln!("       compare --calls N [--seed S]");
        return ExitCode::from(2);
    };
    println!("seed {}", wish.seed);
    let failed = match wish.task {
        Task::Compare => runner::compare(&wish.asked, wish.seed),
        Task::Fuzz(total) => runner::fuzz(total, wish.seed),
        Task::Calls(lists) => runner::calls(lists, wish.seed),
    };
    match failed {
        0 => ExitCode::SUCCESS,
        _ => ExitCode::FAILURE,
    }
}

struct Wish {
    asked: Asked,
    seed: u64,
    task: Task,
}

enum Task {
    /// Every test.
    Compare,
    /// So many inputs in turns.
    Fuzz(u64),
    /// So many inputs of each test of calls on a study.
    Calls(u64),
}

/// The wish of the command line, or nothing if it cannot be understood.
fn read_arguments() -> Option<Wish> {
    let mut wish = Wish {
        asked: DEFAULT_ASKED,
        seed: DEFAULT_SEED,
        task: Task::Compare,
    };
    let mut arguments = std::env::args().skip(1);
    while let Some(name) = arguments.next() {
        let number = arguments.next()?.parse().ok()?;
        match name.as_str() {
            "--files" => wish.asked.files = number,
            "--steps" => wish.asked.steps = number,
            "--lines" => wish.asked.lines = number,
            "--seed" => wish.seed = number,
            "--lists" => wish.asked.lists = number,
            "--fuzz" => wish.task = Task::Fuzz(number),
            "--calls" => wish.task = Task::Calls(number),
            _ => return None,
        }
    }
    Some(wish)
}
