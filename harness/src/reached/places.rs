//! At which places 7, 27 and 28 refused the compared files.

use super::say_line;
use oracle::file::Place;
use std::sync::atomic::{AtomicU64, Ordering::Relaxed};

/// Rules of a record, those of the share among them.
const RULES: usize = 17;
/// X at an end.
const END_RULE: usize = 9;

/// Conditions of 27, each at the follower where it can be told.
const FOLLOWERS: [(usize, usize, &str); 6] = [
    (0, 16, "first not higher"),
    (0, 17, "second not higher"),
    (1, 16, "first above n"),
    (1, 17, "second above n"),
    (2, 17, "no first"),
    (3, 17, "twice"),
];

/// Where X is not 0 at an end, and where nothing enters.
const ENDS: [&str; 5] = [
    "7, X at segment n, version 1",
    "7, X at segment n, version 2",
    "7, X at an end before it",
    "28 at segment n",
    "28 before it",
];

static FIELDS: [AtomicU64; RULES] = [const { AtomicU64::new(0) }; RULES];
static WRONG: [AtomicU64; FOLLOWERS.len()] = [const { AtomicU64::new(0) }; FOLLOWERS.len()];
static AT_ENDS: [AtomicU64; ENDS.len()] = [const { AtomicU64::new(0) }; ENDS.len()];

/// Counts the place of a file that one of these numbers refuses.
pub fn note(file: &[u8], place: &Place) {
    let add = |count: &AtomicU64| {
        count.fetch_add(1, Relaxed);
    };
    match place.number {
        7 => add(&FIELDS[place.rule]),
        27 => {
            let byte = place.byte - record(file, place.part);
            let is_it = |&(rule, at, _): &_| (rule, at) == (place.rule, byte);
            let condition = FOLLOWERS.iter().position(is_it);
            add(&WRONG[condition.expect("a place of 27")]);
        }
        _ => {}
    }
    let last = || place.part + 1 == usize::from(file[6]);
    match (place.number, place.rule) {
        (7, END_RULE) if !last() => add(&AT_ENDS[2]),
        (7, END_RULE) => add(&AT_ENDS[usize::from(file[4]) - 1]),
        (28, _) if last() => add(&AT_ENDS[3]),
        (28, _) => add(&AT_ENDS[4]),
        _ => {}
    }
}

/// Where a record of version 2 begins.
fn record(file: &[u8], part: usize) -> usize {
    16 + 804 * usize::from(file[7]) + 20 * part
}

/// Prints a line for each. Answers whether everything in them came up.
pub fn say() -> bool {
    let fields = FIELDS.iter().enumerate();
    let fields = fields.map(|(rule, count)| (format!("rule {rule}"), count));
    let wrong = FOLLOWERS.iter().zip(&WRONG);
    let wrong = wrong.map(|((.., name), count)| (*name, count));
    let complete = say_line("place of 7", fields) & say_line("place of 27", wrong);
    complete & say_line("ends", ENDS.iter().zip(&AT_ENDS))
}
