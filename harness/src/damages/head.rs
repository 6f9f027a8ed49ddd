//! Rows 2 to 4: mark, version and head fields.

use super::{Damage, Part};
use crate::draft::Draft;
use crate::random::Random;

const fn head(
    name: &'static str,
    number: u64,
    apply: fn(&mut Draft, usize, &mut Random),
) -> Damage<Draft> {
    Damage {
        name,
        number,
        part: Part::File,
        apply,
    }
}

pub const DAMAGES: &[Damage<Draft>] = &[
    head("first letter of the mark", 2, |draft, _, random| {
        draft.spoil(0, random)
    }),
    head("second letter of the mark", 2, |draft, _, random| {
        draft.spoil(1, random)
    }),
    head("third letter of the mark", 2, |draft, _, random| {
        draft.spoil(2, random)
    }),
    head("high byte of the version", 3, |draft, _, random| {
        draft.spoil(3, random)
    }),
    head("low byte of the version", 3, |draft, _, random| {
        draft.put8(4, random.outside(1, 2, 255))
    }),
    head("version 256", 3, |draft, _, _| draft.put16(3, 256)),
    head("T", 4, |draft, _, random| {
        draft.put8(5, random.outside(1, 60, 255))
    }),
    head("n", 4, |draft, _, random| {
        draft.put8(6, random.outside(1, 40, 255))
    }),
    head("c", 4, |draft, _, random| {
        draft.put8(7, random.outside(1, 8, 255))
    }),
    head("tau", 4, |draft, _, random| {
        draft.put8(8, random.outside(1, 120, 255))
    }),
    head("nu", 4, |draft, _, random| {
        draft.put8(9, random.outside(0, 200, 255))
    }),
    head("kappa", 4, |draft, _, random| {
        draft.put8(10, random.outside(1, 200, 255))
    }),
    head("delta", 4, |draft, _, random| {
        draft.put16(12, random.outside(0, 1000, 65_535))
    }),
    head("head byte 11", 4, |draft, _, random| {
        draft.spoil(11, random)
    }),
    head("head byte 14", 4, |draft, _, random| {
        draft.spoil(14, random)
    }),
    head("head byte 15", 4, |draft, _, random| {
        draft.spoil(15, random)
    }),
];
