//! Curves that suit some length of a segment, and idle ones.

use super::{FASTEST, LONGEST, SHORTEST, SLOWEST};
use crate::random::Random;
use oracle::file::Curve;
use oracle::network::ENTRIES;

/// One to eight curves for steps of so many seconds. At least one suits some
/// length, and all are fast ones where they are to bind.
pub fn drawn(random: &mut Random, step: u64, binding: bool) -> Vec<Curve> {
    let curve_count = random.edge(1, 8);
    let kept = random.below(curve_count);
    (0..curve_count)
        .map(|number| {
            let idle = !binding && number != kept && random.once_in(8);
            let first = match idle {
                true => random.edge(SLOWEST, FASTEST),
                false => first_entry(random, step, binding),
            };
            curve(random, first as u32)
        })
        .collect()
}

/// F of a curve that suits a segment of at most 2,000 m, in m/h; often
/// F × T = 3600 × L for a whole L, or just within.
fn first_entry(random: &mut Random, step: u64, binding: bool) -> u64 {
    let most = (3600 * LONGEST / step).min(FASTEST);
    let least = match binding {
        true => 3600 * SHORTEST / step + 1,
        false => SLOWEST,
    };
    if random.once_in(3) {
        let length = random.between(SHORTEST, LONGEST);
        return (3600 * length / step).clamp(least, most);
    }
    random.edge(least, most)
}

/// A curve that never rises: flat, with one drop, falling slowly, soon 0, or in
/// flat stretches.
fn curve(random: &mut Random, first: u32) -> Curve {
    let mut entries = [first; ENTRIES];
    match random.below(5) {
        0 => {}
        1 => {
            let drop_at = random.edge(1, 200) as usize;
            entries[drop_at..].fill(random.edge(0, u64::from(first)) as u32);
        }
        2 => fall(random, &mut entries, u64::from(first) / 100),
        3 => fall(random, &mut entries, u64::from(first)),
        _ => {
            fall(random, &mut entries, u64::from(first) / 20);
            let width = random.between(2, 60) as usize;
            entries
                .chunks_mut(width)
                .for_each(|stretch| stretch.fill(stretch[0]));
        }
    }
    entries
}

/// Each entry at most `most` m/h below the one before.
fn fall(random: &mut Random, entries: &mut Curve, most: u64) {
    for place in 1..ENTRIES {
        let before = u64::from(entries[place - 1]);
        entries[place] = (before - random.below(most.min(before) + 1)) as u32;
    }
}
