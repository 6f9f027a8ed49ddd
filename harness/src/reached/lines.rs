//! Lines of the table that count in which ways something was met.

use super::say_line;
use std::sync::atomic::{AtomicU64, Ordering::Relaxed};

/// Something met, in words.
pub type Way<M> = (&'static str, fn(&M) -> bool);

/// A line: its name, what it is about, and all that must have come up there.
pub type Line<M> = (&'static str, fn(&M) -> bool, &'static [Way<M>]);

/// How often each way of a line came up.
pub type Counts = [AtomicU64; WAYS];

/// Most ways of a line.
const WAYS: usize = 7;

pub const fn none() -> Counts {
    [const { AtomicU64::new(0) }; WAYS]
}

/// Counts all ways in which this was met.
pub fn count<M>(lines: &[Line<M>], counts: &[Counts], met: &M) {
    for ((_, about, ways), counts) in lines.iter().zip(counts) {
        for ((_, is_it), count) in ways.iter().zip(counts) {
            if about(met) && is_it(met) {
                count.fetch_add(1, Relaxed);
            }
        }
    }
}

/// Prints the lines. Answers whether everything in them came up.
pub fn say<M>(lines: &[Line<M>], counts: &[Counts]) -> bool {
    let mut complete = true;
    for ((name, _, ways), counts) in lines.iter().zip(counts) {
        assert!(ways.len() <= counts.len(), "{name}: more ways than counts");
        let ways = ways.iter().zip(counts);
        complete &= say_line(name, ways.map(|(way, count)| (way.0, count)));
    }
    complete
}
