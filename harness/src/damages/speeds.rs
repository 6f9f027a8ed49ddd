//! Row 12: speeds outside 1,000..F, and what is no number.

use super::{unsound, Damage, Part};
use crate::speeds::{quiet, signalling};
use crate::stored_case::CaseDraft;

pub const DAMAGES: &[Damage<CaseDraft>] = &[
    unsound("speed just below 1,000", Part::Record, |draft, place, _| {
        draft.speeds[place] = 1_000_f64.next_down()
    }),
    unsound("speed below 1,000", Part::Record, |draft, place, random| {
        draft.speeds[place] = random.edge(1, 999) as f64
    }),
    unsound("speed 0", Part::Record, |draft, place, _| {
        draft.speeds[place] = 0.0
    }),
    unsound("speed −0", Part::Record, |draft, place, _| {
        draft.speeds[place] = -0.0
    }),
    unsound("subnormal speed", Part::Record, |draft, place, random| {
        let sign = random.below(2) << 63;
        let bits = random.edge(1, (1 << 52) - 1);
        draft.speeds[place] = f64::from_bits(bits | sign)
    }),
    unsound("negative speed", Part::Record, |draft, place, _| {
        draft.speeds[place] = -draft.case.segments[place].speed
    }),
    unsound("speed just above F", Part::Record, |draft, place, _| {
        draft.speeds[place] = free_speed(draft, place).next_up()
    }),
    unsound("speed above F", Part::Record, |draft, place, random| {
        draft.speeds[place] = free_speed(draft, place) + random.edge(1, 200_000) as f64
    }),
    unsound("the greatest speed", Part::Record, |draft, place, _| {
        draft.speeds[place] = f64::MAX
    }),
    unsound("infinite speed", Part::Record, |draft, place, _| {
        draft.speeds[place] = f64::INFINITY
    }),
    unsound("speed −infinity", Part::Record, |draft, place, _| {
        draft.speeds[place] = f64::NEG_INFINITY
    }),
    unsound("quiet NaN", Part::Record, |draft, place, random| {
        draft.speeds[place] = quiet(random)
    }),
    unsound("signalling NaN", Part::Record, |draft, place, random| {
        draft.speeds[place] = signalling(random)
    }),
];

fn free_speed(draft: &CaseDraft, place: usize) -> f64 {
    let network = &draft.network;
    f64::from(network.free_speed(&network.segments[place]))
}
