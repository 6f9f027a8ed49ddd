//! Settings of a metered ramp, with a rate that each permits.

use crate::random::Random;
use oracle::case::{Alinea, SegmentState, Setting};
use oracle::file::Segment;

/// Any setting and rate of an on-ramp.
pub fn set_any(random: &mut Random, segment: &Segment, state: &mut SegmentState) {
    match random.below(4) {
        0 => state.set_meter(segment, Setting::Open),
        1 => fixed(random, segment, state),
        _ => alinea(random, segment, state),
    }
}

/// A fixed rate, the ends often.
pub fn fixed(random: &mut Random, segment: &Segment, state: &mut SegmentState) {
    let rate = random.edge(0, u64::from(segment.most_released));
    state.set_meter(segment, Setting::Fixed(rate));
}

/// ALINEA, at a rate at or beside the least, at Q, or between.
pub fn alinea(random: &mut Random, segment: &Segment, state: &mut SegmentState) {
    let most = u64::from(segment.most_released);
    let highest_gain = random.one_of(&[100, 60_000]);
    let least = random.edge(0, most);
    state.setting = Setting::Alinea(Alinea {
        target: random.edge(1, 199),
        gain: random.edge(1, highest_gain),
        least,
        interval: random.edge(1, 60),
    });
    state.rate = match random.below(4) {
        0 => least,
        1 => (least + 1).min(most),
        2 => most,
        _ => random.between(least, most),
    };
}

/// z of a setting, 1 where it has none.
pub fn interval(setting: &Setting) -> u64 {
    match setting {
        Setting::Alinea(alinea) => alinea.interval,
        Setting::Open | Setting::Fixed(_) => 1,
    }
}
