//! Row 6: entries out of range or rising.

use super::{Damage, Part};
use crate::draft::Draft;
use crate::networks::{FASTEST, SLOWEST};
use crate::random::Random;

const fn curve(name: &'static str, apply: fn(&mut Draft, usize, &mut Random)) -> Damage<Draft> {
    Damage {
        name,
        number: 6,
        part: Part::Curve,
        apply,
    }
}

pub const DAMAGES: &[Damage<Draft>] = &[
    curve("e0 too low", |draft, curve, random| {
        draft.put32(draft.entry_at(curve, 0), random.edge(0, SLOWEST - 1))
    }),
    curve("e0 just too low, the rest with it", |draft, curve, _| {
        for entry in 0..=200 {
            draft.put32(draft.entry_at(curve, entry), SLOWEST - 1)
        }
    }),
    curve("e0 too high", |draft, curve, random| {
        let most = u64::from(u32::MAX);
        draft.put32(draft.entry_at(curve, 0), random.edge(FASTEST + 1, most))
    }),
    curve("e1 rises", |draft, curve, random| {
        rise(draft, curve, 1, random)
    }),
    curve("e100 rises", |draft, curve, random| {
        rise(draft, curve, 100, random)
    }),
    curve("e200 rises", |draft, curve, random| {
        rise(draft, curve, 200, random)
    }),
    curve("some entry rises", |draft, curve, random| {
        let entry = random.between(1, 200) as usize;
        rise(draft, curve, entry, random)
    }),
];

/// An entry above the one before it: by one, or by any amount.
fn rise(draft: &mut Draft, curve: usize, entry: usize, random: &mut Random) {
    let before = u64::from(draft.network.curves[curve][entry - 1]);
    let risen = random.edge(before + 1, u64::from(u32::MAX));
    draft.put32(draft.entry_at(curve, entry), risen);
}
