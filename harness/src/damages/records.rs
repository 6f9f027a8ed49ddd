//! Rows 7 and 8: record fields, and F × T against 3600 × L.

use super::{Damage, Part};
use crate::bounds::Bound;
use crate::draft::Draft;
use crate::networks::{LONGEST, SHORTEST};
use crate::random::Random;

type Apply = fn(&mut Draft, usize, &mut Random);

const fn field(name: &'static str, part: Part, apply: Apply) -> Damage<Draft> {
    Damage {
        name,
        number: 7,
        part,
        apply,
    }
}

const fn too_short(name: &'static str, apply: Apply) -> Damage<Draft> {
    Damage {
        name,
        number: 8,
        part: Part::Record,
        apply,
    }
}

pub const DAMAGES: &[Damage<Draft>] = &[
    field("L", Part::Record, |draft, record, random| {
        let length = random.outside(SHORTEST, LONGEST, 65_535);
        draft.put16(draft.record_at(record), length)
    }),
    field("H", Part::Record, |draft, record, random| {
        let lanes = random.outside(1, 8, 255);
        draft.put8(draft.record_at(record) + 2, lanes)
    }),
    field("curve", Part::Record, |draft, record, random| {
        let curves = draft.network.curves.len() as u64;
        draft.put8(draft.record_at(record) + 3, random.edge(curves, 255))
    }),
    field("C 0", Part::Record, |draft, record, _| {
        draft.put8(draft.record_at(record) + 4, 0)
    }),
    field("C not below J", Part::Record, |draft, record, random| {
        let jam = u64::from(draft.network.segments[record].jam);
        draft.put8(draft.record_at(record) + 4, random.edge(jam, 255))
    }),
    field("J not above C", Part::Record, |draft, record, random| {
        let critical = u64::from(draft.network.segments[record].critical);
        draft.put8(draft.record_at(record) + 5, random.edge(0, critical))
    }),
    field("J above 200", Part::Record, |draft, record, random| {
        draft.put8(draft.record_at(record) + 5, random.edge(201, 255))
    }),
    field(
        "origin neither 0 nor 1",
        Part::Record,
        |draft, record, random| draft.put8(draft.record_at(record) + 6, random.edge(2, 255)),
    ),
    field(
        "no origin at segment 1",
        Part::FirstRecord,
        |draft, record, _| {
            let at = draft.record_at(record);
            draft.put8(at + 6, 0);
            draft.put32(at + 10, 0)
        },
    ),
    field("record byte 7", Part::Record, |draft, record, random| {
        draft.spoil(draft.record_at(record) + 7, random)
    }),
    field("X", Part::Record, |draft, record, random| {
        let share = random.outside(0, 1000, 65_535);
        draft.put16(draft.record_at(record) + 8, share)
    }),
    field(
        "X at segment n",
        Part::LastRecord,
        |draft, record, random| draft.put16(draft.record_at(record) + 8, random.edge(1, 1000)),
    ),
    field("Q with an origin", Part::Record, |draft, record, random| {
        let at = draft.record_at(record);
        let most = random.outside(1, 300_000, u64::from(u32::MAX));
        draft.put8(at + 6, 1);
        draft.put32(at + 10, most)
    }),
    field(
        "Q without an origin",
        Part::LaterRecord,
        |draft, record, random| {
            let at = draft.record_at(record);
            draft.put8(at + 6, 0);
            draft.put32(at + 10, random.edge(1, u64::from(u32::MAX)))
        },
    ),
    field("record byte 14", Part::Record, |draft, record, random| {
        draft.spoil(draft.record_at(record) + 14, random)
    }),
    field("record byte 15", Part::Record, |draft, record, random| {
        draft.spoil(draft.record_at(record) + 15, random)
    }),
    too_short("L a metre too short", |draft, record, _| {
        draft.shorten(record)
    }),
    too_short("F a m/h too high", |draft, record, random| {
        draft.rebound(record, Bound::just_above(random))
    }),
    too_short("F times T one above", |draft, record, random| {
        draft.rebound(record, Bound::one_above(random))
    }),
    too_short("F 100,001 at L 500, T 18", |draft, record, _| {
        draft.rebound(record, Bound::marked_above())
    }),
];
