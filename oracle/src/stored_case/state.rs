//! The state of one segment in its sixteen words: N, w, limit, compliance +
//! 500, setting code, R, target, gain, least, z, last outflow, last release,
//! S, m, b and a free word.

use super::{MOST_COLLECTED, MOST_MV};
use crate::book::rows::{judge_meter, judge_sign};
use crate::case::{Alinea, Collected, SegmentState, Setting, Sign};
use crate::network::Network;

const OPEN: u64 = 0;
const FIXED: u64 = 1;
const ALINEA: u64 = 2;

/// The state of segment `place` (from 0), or nothing where it is not sound.
pub fn read(network: &Network, place: usize, words: &[u64], speed: f64) -> Option<SegmentState> {
    let segment = &network.segments[place];
    let most = u64::from(segment.most_released);
    let free_speed = f64::from(network.free_speed(segment));
    let state = SegmentState {
        count: words[0],
        speed,
        queue: words[1],
        sign: sign(words[2], words[3])?,
        setting: setting(words)?,
        rate: words[5],
        collected: Collected {
            sum: words[12],
            steps: words[13],
        },
        last_outflow: words[10],
        remainder: words[14],
        last_release: words[11],
    };
    let sound = figures_sound(&state)
        && state.remainder < segment.remainder_end()
        && (1_000.0..=free_speed).contains(&speed)
        && setting_sound(network, place, state.setting)
        && rate_sound(state.setting, state.rate, most)
        && collected_sound(state.setting, state.collected);
    sound.then_some(state)
}

/// Puts what a step changes.
pub fn put_step(state: &SegmentState, words: &mut [u64]) {
    words[0] = state.count;
    words[1] = state.queue;
    words[5] = state.rate;
    words[10] = state.last_outflow;
    words[11] = state.last_release;
    words[14] = state.remainder;
    put_collected(state.collected, words);
}

/// A dark sign is two words of 0.
pub fn put_sign(sign: Sign, words: &mut [u64]) {
    [words[2], words[3]] = match sign {
        Sign::Dark => [0, 0],
        Sign::Shown { limit, compliance } => [limit, (compliance + 500) as u64],
    };
}

/// Setting, rate, S and m. Words that the setting does not use are 0.
pub fn put_setting(state: &SegmentState, words: &mut [u64]) {
    words[4..10].fill(0);
    words[5] = state.rate;
    put_collected(state.collected, words);
    match state.setting {
        Setting::Open => words[4] = OPEN,
        Setting::Fixed(_) => words[4] = FIXED,
        Setting::Alinea(alinea) => {
            words[4] = ALINEA;
            words[6] = alinea.target;
            words[7] = alinea.gain;
            words[8] = alinea.least;
            words[9] = alinea.interval;
        }
    }
}

fn put_collected(Collected { sum, steps }: Collected, words: &mut [u64]) {
    [words[12], words[13]] = [sum, steps];
}

fn figures_sound(state: &SegmentState) -> bool {
    let figures = [
        state.count,
        state.queue,
        state.last_outflow,
        state.last_release,
    ];
    figures.iter().all(|&figure| figure <= MOST_MV)
}

/// A dark sign keeps no compliance; a shown one is as its call permits.
fn sign(limit: u64, raised: u64) -> Option<Sign> {
    if limit == 0 {
        return (raised == 0).then_some(Sign::Dark);
    }
    let compliance = i64::try_from(raised).ok()? - 500;
    judge_sign(limit, compliance).ok()?;
    Some(Sign::Shown { limit, compliance })
}

/// Words that a setting does not use are 0.
fn setting(words: &[u64]) -> Option<Setting> {
    let unused = words[6..10].iter().all(|&word| word == 0);
    match words[4] {
        OPEN if unused => Some(Setting::Open),
        FIXED if unused => Some(Setting::Fixed(words[5])),
        ALINEA => Some(Setting::Alinea(Alinea {
            target: words[6],
            gain: words[7],
            least: words[8],
            interval: words[9],
        })),
        _ => None,
    }
}

/// Every ramp may be open; other settings are as their call permits.
fn setting_sound(network: &Network, place: usize, setting: Setting) -> bool {
    setting == Setting::Open || judge_meter(network, place, setting).is_ok()
}

/// R of a ramp that releases at most `most` mv per step.
fn rate_sound(setting: Setting, rate: u64, most: u64) -> bool {
    match setting {
        Setting::Open => rate == most,
        Setting::Fixed(fixed) => rate == fixed,
        Setting::Alinea(alinea) => (alinea.least..=most).contains(&rate),
    }
}

/// S and m of an ALINEA ramp are bounded. Others collect nothing.
fn collected_sound(setting: Setting, collected: Collected) -> bool {
    match setting {
        Setting::Open | Setting::Fixed(_) => collected == Collected::default(),
        Setting::Alinea(_) => {
            collected.steps <= MOST_COLLECTED && collected.sum <= MOST_COLLECTED * MOST_MV
        }
    }
}
