//! Which numbers the C functions answered in this run, how runs ended, where
//! files were refused, what steps met at a mainstream origin, at ramps that
//! jam, at ALINEA ramps, of remainders, and where freeways part and meet, what
//! calls about a ramp met, and what quiet steps did.

mod alinea;
mod fractions;
mod jams;
mod junctions;
mod lines;
mod mainstream;
pub mod places;
pub mod quiet;
mod ramps;

use crate::calls::{Answer, Call};
use crate::engine::Function;
use oracle::case::Case;
use oracle::file::Network;
use std::fmt::Display;
use std::sync::atomic::{AtomicU64, Ordering};

/// More numbers than the papers have.
const NUMBERS: usize = 64;

/// How often each function, in the order of the table, answered each number.
static COUNTS: [[AtomicU64; NUMBERS]; Function::ALL.len()] =
    [const { [const { AtomicU64::new(0) }; NUMBERS] }; Function::ALL.len()];

/// How an accepted run of rows can end: the number that stopped it or 0,
/// whether rows were taken before, and that in words. 12 refuses the run where
/// it meets the first row.
const ENDS: [(u64, bool, &str); 7] = [
    (0, false, "no rows"),
    (0, true, "all rows taken"),
    (12, true, "12 after some rows"),
    (15, false, "15 at once"),
    (15, true, "15 after some rows"),
    (16, false, "16 at once"),
    (16, true, "16 after some rows"),
];

/// How often each of them came up.
static ENDED: [AtomicU64; ENDS.len()] = [const { AtomicU64::new(0) }; ENDS.len()];

/// Counts one number that was as expected.
pub fn note(function: Function, number: u64) {
    COUNTS[function as usize][number as usize].fetch_add(1, Ordering::Relaxed);
}

/// Counts the number of such an answer of a call on the study in these words;
/// of an accepted run how it ended, and what a call about a ramp met.
pub fn note_answer(function: Function, call: &Call, words: &[u64], answer: &Answer) {
    note(function, answer.number);
    ramps::note(words, call, answer.number);
    let (Function::study_run, 0, &[taken, stopped, ..]) =
        (function, answer.number, &*answer.figures)
    else {
        return;
    };
    let is_it = |&(number, after_rows, _): &_| (number, after_rows) == (stopped, taken > 0);
    let end = ENDS.iter().position(is_it).expect("an end of a run");
    ENDED[end].fetch_add(1, Ordering::Relaxed);
}

/// Counts what a step of this case with these arrivals meets.
pub fn note_step(network: &Network, case: &Case, arrivals: &[u32]) {
    mainstream::note(network, case, arrivals);
    jams::note(network, case);
    alinea::note(network, case);
    fractions::note(network, case);
    junctions::note(network, case, arrivals);
}

/// Prints a line for each function: how often it accepted, and how often each
/// number refused it. Answers whether everything in the table came up.
pub fn say() -> bool {
    let mut complete = true;
    println!("{:<22} {:>9}  refused by", "function", "accepted");
    for (&(name, numbers), counts) in Function::ALL.iter().zip(&COUNTS) {
        let times = |number: u64| counts[number as usize].load(Ordering::Relaxed);
        if (0..NUMBERS as u64).all(|number| times(number) == 0) {
            println!("{name:<22} not asked");
            complete = false;
            continue;
        }
        let refused = numbers.iter().map(|number| said(number, times(*number)));
        let refused: Vec<String> = refused.collect();
        println!("{name:<22} {:>9}  {}", times(0), refused.join(", "));
        complete &= times(0) > 0 && numbers.iter().all(|&number| times(number) > 0);
    }
    complete &= say_ends();
    complete &= places::say();
    complete &= mainstream::say();
    complete &= jams::say();
    complete &= alinea::say();
    complete &= fractions::say();
    complete &= ramps::say();
    complete &= quiet::say();
    junctions::say() && complete
}

/// The same for the ends of runs.
fn say_ends() -> bool {
    let ends = ENDS.iter().zip(&ENDED);
    say_line("runs ended", ends.map(|((.., name), count)| (*name, count)))
}

/// Prints one line: of each of these how often it came up. Answers whether all
/// of them did.
fn say_line<'a, W: Display>(name: &str, ways: impl Iterator<Item = (W, &'a AtomicU64)>) -> bool {
    let times = ways.map(|(way, count)| (way, count.load(Ordering::Relaxed)));
    let times: Vec<(W, u64)> = times.collect();
    if times.iter().all(|&(_, times)| times == 0) {
        println!("{name:<22} not asked");
        return false;
    }
    let ways: Vec<String> = times.iter().map(|(way, times)| said(way, *times)).collect();
    println!("{name:<22} {}", ways.join(", "));
    times.iter().all(|&(_, times)| times > 0)
}

fn said(what: impl Display, times: u64) -> String {
    match times {
        0 => format!("{what} NEVER"),
        times => format!("{what} ({times})"),
    }
}
