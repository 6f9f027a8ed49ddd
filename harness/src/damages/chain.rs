//! Rows 3, 7, 27 and 28 on stored words, and a study of version 1 that is no
//! chain, also where version 2 would permit it.

use super::stored::outside;
use super::{Damage, Part};
use crate::random::Random;
use crate::words::{field_word, Stored};
use oracle::file::Followers;

type Apply = fn(&mut Stored, usize, &mut Random);

/// Fields of a record.
const EXIT_SHARE: usize = 6;
const FIRST: usize = 8;
const SECOND: usize = 9;
const SHARE: usize = 10;

const fn damage(name: &'static str, number: u64, part: Part, apply: Apply) -> Damage<Stored> {
    Damage {
        name,
        number,
        part,
        apply,
    }
}

const fn field(name: &'static str, apply: Apply) -> Damage<Stored> {
    damage(name, 7, Part::JunctionRecord, apply)
}

const fn follower(name: &'static str, apply: Apply) -> Damage<Stored> {
    damage(name, 27, Part::JunctionRecord, apply)
}

const fn pair(name: &'static str, apply: Apply) -> Damage<Stored> {
    damage(name, 27, Part::FollowedRecord, apply)
}

/// In a study of version 1: row 7, since its words must hold the chain.
const fn chain(name: &'static str, apply: Apply) -> Damage<Stored> {
    damage(name, 7, Part::ChainRecord, apply)
}

pub const DAMAGES: &[Damage<Stored>] = &[
    damage("version", 3, Part::File, |stored, _, random| {
        stored.words[7] = outside(stored.words[7], 1, 2, random)
    }),
    field("share above 1000", |stored, record, random| {
        spoil(stored, record, SHARE, 0, 1000, random)
    }),
    damage(
        "share above 1000 of two",
        7,
        Part::FollowedRecord,
        |stored, record, random| {
            let n = stored.network.segments.len() as u64;
            put(stored, record, FIRST, record as u64 + 2);
            put(stored, record, SECOND, n);
            spoil(stored, record, SHARE, 0, 1000, random)
        },
    ),
    field(
        "share not 1000 without a second",
        |stored, record, random| {
            put(stored, record, SECOND, 0);
            put(stored, record, SHARE, 1000);
            match random.once_in(2) {
                true => put(stored, record, SHARE, random.edge(0, 999)),
                false => spoil(stored, record, SHARE, 1000, 1000, random),
            }
        },
    ),
    field("X at an end", |stored, record, random| {
        put_followers(stored, record, Followers::NONE);
        put(stored, record, EXIT_SHARE, random.edge(1, 1000))
    }),
    follower("first", |stored, record, random| {
        spoil_follower(stored, record, FIRST, random)
    }),
    follower("second", |stored, record, random| {
        spoil_follower(stored, record, SECOND, random)
    }),
    pair("a second without a first", |stored, record, random| {
        let higher = higher(stored, record, random);
        put(stored, record, FIRST, 0);
        put(stored, record, SECOND, higher)
    }),
    pair("one segment twice", |stored, record, random| {
        let higher = higher(stored, record, random);
        put(stored, record, FIRST, higher);
        put(stored, record, SECOND, higher)
    }),
    damage(
        "nothing enters",
        28,
        Part::LaterJunctionRecord,
        |stored, record, _| stored.cut_off(record),
    ),
    chain("another first in a chain", |stored, record, random| {
        let right = stored.words[field_word(record, FIRST)];
        spoil(stored, record, FIRST, right, right, random)
    }),
    chain("a second in a chain", |stored, record, random| {
        spoil(stored, record, SECOND, 0, 0, random)
    }),
    chain("another share in a chain", |stored, record, random| {
        spoil(stored, record, SHARE, 1000, 1000, random)
    }),
    damage(
        "a chain that parts and meets",
        7,
        Part::LaterChainRecord,
        |stored, record, random| {
            // Sound as version 2: the segment before it may also pass it by.
            let before = record - 1;
            let n = stored.network.segments.len() as u64;
            let next = record as u64 + 1;
            match next < n {
                true => {
                    put(stored, before, SECOND, random.edge(next + 1, n));
                    put(stored, before, SHARE, random.edge(0, 1000))
                }
                false => end_before(stored, record, random),
            }
        },
    ),
    damage(
        "a chain that ends early",
        7,
        Part::LaterChainRecord,
        end_before,
    ),
];

/// Sound as version 2: the chain ends before a record, which has an origin.
fn end_before(stored: &mut Stored, record: usize, random: &mut Random) {
    put_followers(stored, record - 1, Followers::NONE);
    put(stored, record - 1, EXIT_SHARE, 0);
    stored.words[field_word(record, 5)] = 1;
    stored.words[field_word(record, 7)] = random.edge(1, 300_000);
}

fn put(stored: &mut Stored, record: usize, field: usize, value: u64) {
    stored.words[field_word(record, field)] = value;
}

fn put_followers(stored: &mut Stored, record: usize, followers: Followers) {
    put(stored, record, FIRST, followers.first.into());
    put(stored, record, SECOND, followers.second.into());
    put(stored, record, SHARE, followers.share.into());
}

/// A field outside `low..=high`.
fn spoil(
    stored: &mut Stored,
    record: usize,
    field: usize,
    low: u64,
    high: u64,
    random: &mut Random,
) {
    let word = &mut stored.words[field_word(record, field)];
    *word = outside(*word, low, high, random);
}

/// A follower that is not higher, or above n, by one, by far or in high bits
/// alone.
fn spoil_follower(stored: &mut Stored, record: usize, field: usize, random: &mut Random) {
    let (number, n) = (record as u64 + 1, stored.network.segments.len() as u64);
    match random.once_in(2) {
        true => put(stored, record, field, random.edge(1, number)),
        false => spoil(stored, record, field, 0, n, random),
    }
}

/// A number that may follow the record's segment.
fn higher(stored: &Stored, record: usize, random: &mut Random) -> u64 {
    random.edge(record as u64 + 2, stored.network.segments.len() as u64)
}
