//! The first fault of the records: 7, 27 and 8 in each of them, then 28.

use super::{number, record, segments, version, Place};
use crate::file::{record_bytes, CURVE_BYTES, HEAD_BYTES};
use crate::ranges::CHAIN;
use crate::refusal::{FOLLOWER, NOTHING_ENTERS, RECORD_FIELD, TOO_SHORT_A_SEGMENT};

/// Where first and second follower and the share stand in a record.
const FIRST: usize = 16;
const SECOND: usize = 17;
const SHARE: usize = 18;
/// Where the origin stands.
const ORIGIN: usize = 6;

pub fn in_records(file: &[u8]) -> Option<Place> {
    let parts = 0..segments(file);
    let in_one = |part| {
        broken_rule(file, part)
            .or_else(|| wrong_follower(file, part))
            .or_else(|| too_short(file, part))
    };
    let found = parts.clone().find_map(in_one);
    found.or_else(|| parts.clone().find_map(|part| not_entered(file, part)))
}

/// The place of a fault at a byte of a record.
fn at(file: &[u8], refused_by: u8, part: usize, rule: usize, byte: usize) -> Place {
    Place {
        number: refused_by,
        part,
        rule,
        byte: record(file, part) + byte,
    }
}

fn bytes(file: &[u8], part: usize) -> &[u8] {
    &file[record(file, part)..][..record_bytes(version(file))]
}

/// First and second follower by their numbers, 0 for none. In version 1 the
/// next segment follows.
fn followers(file: &[u8], part: usize) -> [usize; 2] {
    if version(file) == CHAIN {
        let last = part + 1 == segments(file);
        return [if last { 0 } else { part + 2 }, 0];
    }
    let bytes = bytes(file, part);
    [FIRST, SECOND].map(|at| usize::from(bytes[at]))
}

/// Row 7.
fn broken_rule(file: &[u8], part: usize) -> Option<Place> {
    let rules = rules(file, part);
    let shares = share_rules(file, part);
    let mut all = rules.iter().chain(&shares).enumerate();
    let (rule, &(byte, _)) = all.find(|(_, (_, holds))| !holds)?;
    Some(at(file, RECORD_FIELD, part, rule, byte))
}

/// The rules that both versions have: the byte of the field, and whether it
/// holds.
fn rules(file: &[u8], part: usize) -> [(usize, bool); 15] {
    let record = bytes(file, part);
    let byte = |at: usize| u64::from(record[at]);
    let (jam, origin, exit) = (byte(5), byte(ORIGIN), number(&record[8..10]));
    let most = number(&record[10..14]);
    let (first, end) = (part == 0, followers(file, part) == [0, 0]);
    [
        (0, (100..=2000).contains(&number(&record[..2]))),
        (2, (1..=8).contains(&byte(2))),
        (3, byte(3) < u64::from(file[7])),
        (4, byte(4) >= 1),
        (4, byte(4) < jam),
        (5, (2..=200).contains(&jam)),
        (ORIGIN, origin <= 1),
        (ORIGIN, !first || origin != 0),
        (8, exit <= 1000),
        (8, !end || exit == 0),
        (10, origin != 0 || most == 0),
        (10, origin != 1 || (1..=300_000).contains(&most)),
        (7, byte(7) == 0),
        (14, byte(14) == 0),
        (15, byte(15) == 0),
    ]
}

/// The rules of the share, which only version 2 has.
fn share_rules(file: &[u8], part: usize) -> Vec<(usize, bool)> {
    if version(file) == CHAIN {
        return Vec::new();
    }
    let share = number(&bytes(file, part)[SHARE..]);
    let [_, second] = followers(file, part);
    vec![
        (SHARE, share <= 1000),
        (SHARE, second != 0 || share == 1000),
    ]
}

/// Row 27: the first of its four conditions that applies.
fn wrong_follower(file: &[u8], part: usize) -> Option<Place> {
    let [first, second] = followers(file, part);
    let not_higher = |follower| follower != 0 && follower <= part + 1;
    let above = |follower| follower > segments(file);
    let conditions = [
        [not_higher(first), not_higher(second)],
        [above(first), above(second)],
        [false, first == 0 && second != 0],
        [false, first != 0 && first == second],
    ];
    for (rule, [at_first, at_second]) in conditions.into_iter().enumerate() {
        if at_first || at_second {
            let byte = if at_first { FIRST } else { SECOND };
            return Some(at(file, FOLLOWER, part, rule, byte));
        }
    }
    None
}

/// Row 8.
fn too_short(file: &[u8], part: usize) -> Option<Place> {
    let record = bytes(file, part);
    let curve = HEAD_BYTES + CURVE_BYTES * usize::from(record[3]);
    let free_speed = number(&file[curve..curve + 4]);
    let short = free_speed * u64::from(file[5]) > 3600 * number(&record[..2]);
    short.then(|| at(file, TOO_SHORT_A_SEGMENT, part, 0, 0))
}

/// Row 28.
fn not_entered(file: &[u8], part: usize) -> Option<Place> {
    let named = |other| followers(file, other).contains(&(part + 1));
    let entered = (0..segments(file)).any(named);
    let open = bytes(file, part)[ORIGIN] == 0 && !entered;
    open.then(|| at(file, NOTHING_ENTERS, part, 0, ORIGIN))
}
