//! Rows 7, 27 and 28 of version 2: share, exit share at an end, followers, and
//! segments that nothing enters.

use super::{Damage, Part};
use crate::draft::Draft;
use crate::random::Random;

type Apply = fn(&mut Draft, usize, &mut Random);

const fn damage(name: &'static str, number: u64, part: Part, apply: Apply) -> Damage<Draft> {
    Damage {
        name,
        number,
        part,
        apply,
    }
}

const fn field(name: &'static str, apply: Apply) -> Damage<Draft> {
    damage(name, 7, Part::JunctionRecord, apply)
}

/// At any record.
const fn follower(name: &'static str, apply: Apply) -> Damage<Draft> {
    damage(name, 27, Part::JunctionRecord, apply)
}

/// At a record with a higher one.
const fn pair(name: &'static str, apply: Apply) -> Damage<Draft> {
    damage(name, 27, Part::FollowedRecord, apply)
}

/// At a record past the first.
const fn nothing(name: &'static str, apply: Apply) -> Damage<Draft> {
    damage(name, 28, Part::LaterJunctionRecord, apply)
}

pub const DAMAGES: &[Damage<Draft>] = &[
    field("share above 1000", |draft, record, random| {
        let share = random.edge(1001, 65_535);
        draft.put16(draft.record_at(record) + 18, share)
    }),
    damage(
        "share above 1000 of two",
        7,
        Part::FollowedRecord,
        |draft, record, random| {
            let n = draft.network.segments.len() as u64;
            let share = random.edge(1001, 65_535);
            draft.put_followers(record, [record as u64 + 2, n, share])
        },
    ),
    field(
        "share not 1000 without a second",
        |draft, record, random| {
            let at = draft.record_at(record);
            draft.put8(at + 17, 0);
            draft.put16(at + 18, random.edge(0, 999))
        },
    ),
    field("X at an end", |draft, record, random| {
        draft.put_followers(record, [0, 0, 1000]);
        draft.put16(draft.record_at(record) + 8, random.edge(1, 1000))
    }),
    follower("first not higher", |draft, record, random| {
        put_first(draft, record, not_higher(record, random))
    }),
    follower("second not higher", |draft, record, random| {
        put_second(draft, record, not_higher(record, random))
    }),
    follower("first above n", |draft, record, random| {
        let above = above(draft, random);
        put_first(draft, record, above)
    }),
    follower("second above n", |draft, record, random| {
        let above = above(draft, random);
        put_second(draft, record, above)
    }),
    follower(
        "first above n, second not higher",
        |draft, record, random| {
            let above = above(draft, random);
            put_first(draft, record, above);
            put_second(draft, record, not_higher(record, random))
        },
    ),
    follower("second not higher, no first", |draft, record, random| {
        put_first(draft, record, 0);
        put_second(draft, record, not_higher(record, random))
    }),
    follower("second above n, no first", |draft, record, random| {
        let above = above(draft, random);
        put_first(draft, record, 0);
        put_second(draft, record, above)
    }),
    follower("one not higher twice", |draft, record, random| {
        let number = not_higher(record, random);
        put_first(draft, record, number);
        put_second(draft, record, number)
    }),
    follower("one above n twice", |draft, record, random| {
        let above = above(draft, random);
        put_first(draft, record, above);
        put_second(draft, record, above)
    }),
    pair("a second without a first", |draft, record, random| {
        let higher = higher(draft, record, random);
        put_first(draft, record, 0);
        put_second(draft, record, higher)
    }),
    pair("one segment twice", |draft, record, random| {
        let higher = higher(draft, record, random);
        put_first(draft, record, higher);
        put_second(draft, record, higher)
    }),
    damage(
        "X at segment n of a chain",
        7,
        Part::ChainRecord,
        |draft, _, random| {
            let last = draft.record_at(draft.network.segments.len() - 1);
            draft.put16(last + 8, random.edge(1, 1000))
        },
    ),
    nothing("nothing enters", |draft, record, _| draft.cut_off(record)),
    nothing("nothing enters segment 2", |draft, _, _| draft.cut_off(1)),
    nothing("nothing enters segment n", |draft, _, _| {
        draft.cut_off(draft.network.segments.len() - 1)
    }),
];

fn put_first(draft: &mut Draft, record: usize, number: u64) {
    draft.put8(draft.record_at(record) + 16, number)
}

fn put_second(draft: &mut Draft, record: usize, number: u64) {
    draft.put8(draft.record_at(record) + 17, number)
}

/// A number up to that of the record's own segment.
fn not_higher(record: usize, random: &mut Random) -> u64 {
    random.edge(1, record as u64 + 1)
}

/// A number above n.
fn above(draft: &Draft, random: &mut Random) -> u64 {
    random.edge(draft.network.segments.len() as u64 + 1, 255)
}

/// A number that may follow the record's segment.
fn higher(draft: &Draft, record: usize, random: &mut Random) -> u64 {
    random.edge(record as u64 + 2, draft.network.segments.len() as u64)
}
