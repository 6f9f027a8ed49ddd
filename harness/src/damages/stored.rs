//! Rows 4, 6, 7 and 8 on stored words. A word may be any number, so each
//! damage also tries numbers that look right in their lowest bits alone.

use super::{Damage, Part};
use crate::bounds::Bound;
use crate::networks::{FASTEST, LONGEST, SHORTEST, SLOWEST};
use crate::random::Random;
use crate::words::{entry_word, field_word, Stored};

type Apply = fn(&mut Stored, usize, &mut Random);

const fn stored(name: &'static str, number: u64, part: Part, apply: Apply) -> Damage<Stored> {
    Damage {
        name,
        number,
        part,
        apply,
    }
}

const fn head(name: &'static str, apply: Apply) -> Damage<Stored> {
    stored(name, 4, Part::File, apply)
}

const fn entry(name: &'static str, apply: Apply) -> Damage<Stored> {
    stored(name, 6, Part::Curve, apply)
}

const fn field(name: &'static str, part: Part, apply: Apply) -> Damage<Stored> {
    stored(name, 7, part, apply)
}

const fn short(name: &'static str, apply: Apply) -> Damage<Stored> {
    stored(name, 8, Part::Record, apply)
}

pub const DAMAGES: &[Damage<Stored>] = &[
    head("T", |stored, _, random| spoil(stored, 0, 1, 60, random)),
    head("n", |stored, _, random| spoil(stored, 1, 1, 40, random)),
    head("c", |stored, _, random| spoil(stored, 2, 1, 8, random)),
    head("tau", |stored, _, random| spoil(stored, 3, 1, 120, random)),
    head("nu", |stored, _, random| spoil(stored, 4, 0, 200, random)),
    head("kappa", |stored, _, random| {
        spoil(stored, 5, 1, 200, random)
    }),
    head("delta", |stored, _, random| {
        spoil(stored, 6, 0, 1000, random)
    }),
    entry("e0", |stored, curve, random| {
        spoil(stored, entry_word(curve, 0), SLOWEST, FASTEST, random)
    }),
    entry("e1 rises", |stored, curve, random| {
        rise(stored, curve, 1, random)
    }),
    entry("e100 rises", |stored, curve, random| {
        rise(stored, curve, 100, random)
    }),
    entry("e200 rises", |stored, curve, random| {
        rise(stored, curve, 200, random)
    }),
    entry("some entry rises", |stored, curve, random| {
        let entry = random.between(1, 200) as usize;
        rise(stored, curve, entry, random)
    }),
    field("L", Part::Record, |stored, record, random| {
        spoil(stored, field_word(record, 0), SHORTEST, LONGEST, random)
    }),
    field("H", Part::Record, |stored, record, random| {
        spoil(stored, field_word(record, 1), 1, 8, random)
    }),
    field("curve", Part::Record, |stored, record, random| {
        let last = stored.network.curves.len() as u64 - 1;
        spoil(stored, field_word(record, 2), 0, last, random)
    }),
    field("C", Part::Record, |stored, record, random| {
        let jam = u64::from(stored.network.segments[record].jam);
        spoil(stored, field_word(record, 3), 1, jam - 1, random)
    }),
    field("J", Part::Record, |stored, record, random| {
        let critical = u64::from(stored.network.segments[record].critical);
        spoil(stored, field_word(record, 4), critical + 1, 200, random)
    }),
    field("origin", Part::Record, |stored, record, random| {
        spoil(stored, field_word(record, 5), 0, 1, random)
    }),
    field(
        "no origin at segment 1",
        Part::FirstRecord,
        |stored, record, _| {
            stored.words[field_word(record, 5)] = 0;
            stored.words[field_word(record, 7)] = 0
        },
    ),
    field("X", Part::Record, |stored, record, random| {
        spoil(stored, field_word(record, 6), 0, 1000, random)
    }),
    field(
        "X at segment n",
        Part::LastRecord,
        |stored, record, random| stored.words[field_word(record, 6)] = random.edge(1, 1000),
    ),
    field(
        "Q with an origin",
        Part::Record,
        |stored, record, random| {
            stored.words[field_word(record, 5)] = 1;
            spoil(stored, field_word(record, 7), 1, 300_000, random)
        },
    ),
    field(
        "Q without an origin",
        Part::LaterRecord,
        |stored, record, random| {
            stored.words[field_word(record, 5)] = 0;
            stored.words[field_word(record, 7)] = 0;
            spoil(stored, field_word(record, 7), 0, 0, random)
        },
    ),
    short("L a metre too short", |stored, record, _| {
        stored.shorten(record)
    }),
    short("F a m/h too high", |stored, record, random| {
        stored.rebound(record, Bound::just_above(random))
    }),
    short("F times T one above", |stored, record, random| {
        stored.rebound(record, Bound::one_above(random))
    }),
];

/// A word outside `low..=high`.
fn spoil(stored: &mut Stored, word: usize, low: u64, high: u64, random: &mut Random) {
    stored.words[word] = outside(stored.words[word], low, high, random);
}

/// An entry above the one before it: by one, by far, or in high bits alone.
fn rise(stored: &mut Stored, curve: usize, entry: usize, random: &mut Random) {
    let before = stored.words[entry_word(curve, entry - 1)];
    spoil(stored, entry_word(curve, entry), 0, before, random);
}

/// A number outside `low..=high`: beside an end, any, or one that agrees with
/// `right` in its lowest 8, 16 or 32 bits.
pub fn outside(right: u64, low: u64, high: u64, random: &mut Random) -> u64 {
    loop {
        let number = match random.below(7) {
            0 => low.saturating_sub(1),
            1 => high + 1,
            2 => u64::MAX,
            3 => right + (random.between(1, 255) << 8),
            4 => right + (random.between(1, 255) << 16),
            5 => right + (random.edge(1, (1 << 31) - 1) << 32),
            _ => random.number(),
        };
        if number < low || number > high {
            return number;
        }
    }
}
