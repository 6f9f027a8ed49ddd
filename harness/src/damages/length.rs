//! Row 5: the length against c and n.

use super::{Damage, Part};
use crate::draft::{record_length, Draft};
use crate::random::Random;

const fn length(name: &'static str, apply: fn(&mut Draft, usize, &mut Random)) -> Damage<Draft> {
    Damage {
        name,
        number: 5,
        part: Part::File,
        apply,
    }
}

pub const DAMAGES: &[Damage<Draft>] = &[
    length("n of another file", |draft, _, random| {
        let segments = u64::from(draft.bytes[6]);
        draft.put8(6, another(segments, 40, random))
    }),
    length("c of another file", |draft, _, random| {
        let curves = u64::from(draft.bytes[7]);
        draft.put8(7, another(curves, 8, random))
    }),
    length("a byte less", |draft, _, _| {
        draft.bytes.pop();
    }),
    length("a byte more", |draft, _, _| draft.bytes.push(0)),
    length("a record less", |draft, _, _| {
        draft.bytes.truncate(last_record(draft))
    }),
    length("the last record twice", |draft, _, _| {
        draft.bytes.extend_from_within(last_record(draft)..)
    }),
    length("the other version", |draft, _, _| {
        let other = 3 - u64::from(draft.network.version);
        draft.put16(3, other)
    }),
    length("a last record of the other version", |draft, _, _| {
        let other = record_length(3 - draft.network.version);
        draft.bytes.resize(last_record(draft) + other, 0)
    }),
    length("the first curve twice", |draft, _, _| {
        draft.bytes.extend_from_within(16..16 + 804)
    }),
];

/// Where the last record begins.
fn last_record(draft: &Draft) -> usize {
    draft.record_at(draft.network.segments.len() - 1)
}

/// A number in `1..=most` that is not `number`.
fn another(number: u64, most: u64, random: &mut Random) -> u64 {
    let other = random.edge(1, most - 1);
    if other < number {
        other
    } else {
        other + 1
    }
}
