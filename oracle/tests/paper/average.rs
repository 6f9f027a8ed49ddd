//! ALINEA on the average: how a rate moves by the mean of the steps before,
//! worked out by hand.
//!
//! The ramp is segment 2 of two, with G 1,000 and Q 6,000. Its target is 30,
//! its gain 100, its least 500 and z 3, where a test does not say otherwise.

use crate::networks;
use oracle::case::{Alinea, Case, Collected, SegmentState, Setting};
use oracle::network::{chain, Network};
use oracle::step::metering::rate_change;
use oracle::step::step;

const ALINEA: Alinea = Alinea {
    target: 30,
    gain: 100,
    least: 500,
    interval: 3,
};

/// The segment of the tallies twice.
fn network() -> Network {
    let mut network = networks::tallies();
    network.segments = chain(vec![network.segments[0].clone(); 2]);
    network
}

/// S and m.
const fn collected(sum: u64, steps: u64) -> Collected {
    Collected { sum, steps }
}

/// N of both segments is 20,000, and the ramp is metered so.
fn metered(setting: Setting) -> Case {
    let network = network();
    let mut case = Case::start(&network, &[20_000; 2], &[90_000; 2], &[0, 10_000]);
    case.segments[1].set_meter(&network.segments[1], setting);
    case
}

/// The ramp after a step from that t, S and m, its rate being 3,000 before.
fn stepped(steps: u64, before: Collected) -> SegmentState {
    let mut case = metered(Setting::Alinea(ALINEA));
    case.steps = steps;
    case.segments[1].rate = 3_000;
    case.segments[1].collected = before;
    step(&network(), &mut case, &[0; 2]);
    case.segments[1].clone()
}

/// q for that gain, S and m.
fn change(gain: u64, sum: u64, steps: u64) -> i64 {
    let alinea = Alinea { gain, ..ALINEA };
    rate_change(&network().segments[1], &alinea, collected(sum, steps))
}

/// The marked cases of q.
#[test]
fn of_one_step_as_it_is_marked() {
    assert_eq!(change(100, 34_500, 1), -450);
    assert_eq!(change(100, 30_001, 1), 0);
    assert_eq!(change(100, 29_999, 1), 0);
}

/// The mean is 32,000, then 28,000.
#[test]
fn of_several_steps() {
    assert_eq!(change(100, 96_000, 3), -200);
    assert_eq!(change(100, 84_000, 3), 200);
    assert_eq!(change(100, 90_000, 3), 0);
    assert_eq!(change(100, 0, 60), 3_000);
}

#[test]
fn towards_zero_on_either_side() {
    assert_eq!([90_029, 90_030].map(|sum| change(100, sum, 3)), [0, -1]);
    assert_eq!([89_971, 89_970].map(|sum| change(100, sum, 3)), [0, 1]);
    assert_eq!([90_059, 90_060].map(|sum| change(100, sum, 3)), [-1, -2]);
    assert_eq!([89_941, 89_940].map(|sum| change(100, sum, 3)), [1, 2]);
}

/// A third of a mv off the target is 20 mv per step by the highest gain.
#[test]
fn the_mean_itself_is_not_rounded() {
    assert_eq!(change(60_000, 89_999, 3), 20);
    assert_eq!(change(60_000, 90_001, 3), -20);
}

/// The greatest S of a sound study.
#[test]
fn the_greatest_sum() {
    const MOST: u64 = 60_000_000_000_000;
    assert_eq!(change(60_000, MOST, 1), -3_599_999_998_200_000);
    assert_eq!(change(60_000, MOST, 60), -59_999_998_200_000);
}

/// The rate moves by the mean, and the present N begins the next one. The
/// release of the same step is bounded by the moved rate.
#[test]
fn a_turn_moves_the_rate() {
    for (sum, rate) in [(96_000, 2_800), (84_000, 3_200)] {
        let ramp = stepped(6, collected(sum, 3));
        assert_eq!((ramp.rate, ramp.last_release), (rate, rate));
        assert_eq!(ramp.collected, collected(20_000, 1));
    }
}

#[test]
fn between_turns_steps_are_collected() {
    let ramp = stepped(7, collected(96_000, 3));
    assert_eq!((ramp.rate, ramp.last_release), (3_000, 3_000));
    assert_eq!(ramp.collected, collected(116_000, 4));
}

/// With m 0 the rate stays, and nothing is cleared: an S that was written by
/// hand stays and grows.
#[test]
fn nothing_collected_leaves_the_rate() {
    for (sum, grown) in [(0, 20_000), (7, 20_007)] {
        let ramp = stepped(6, collected(sum, 0));
        assert_eq!((ramp.rate, ramp.last_release), (3_000, 3_000));
        assert_eq!(ramp.collected, collected(grown, 1));
    }
}

#[test]
fn the_rate_is_kept_in_its_range() {
    assert_eq!(stepped(6, collected(0, 60)).rate, 6_000);
    assert_eq!(stepped(6, collected(165_000, 3)).rate, 500);
    assert_eq!(stepped(6, collected(60_000_000_000_000, 1)).rate, 500);
}

/// From the start on, with target 20: each mean is of the three steps before,
/// the present one left out. In the first step nothing has been collected.
#[test]
fn three_steps_a_turn() {
    let network = network();
    let target = 20;
    let mut case = metered(Setting::Alinea(Alinea { target, ..ALINEA }));
    let (mut counts, mut rates) = (Vec::new(), vec![6_000]);
    for t in 0..12 {
        counts.push(case.segments[1].count);
        step(&network, &mut case, &[12_000, 4_000]);
        let ramp = &case.segments[1];
        let since = &counts[t - t % 3..];
        let expected = collected(since.iter().sum(), since.len() as u64);
        assert_eq!(ramp.collected, expected, "step {t}");
        if t > 0 && t % 3 == 0 {
            let sum = counts[t - 3..t].iter().sum::<u64>() as i64;
            let q = 100 * (60_000 - sum) / 3_000;
            rates.push((rates[t / 3 - 1] + q).clamp(500, 6_000));
        }
        assert_eq!(ramp.rate as i64, rates[t / 3], "step {t}");
    }
    assert!(rates[1] < rates[0] && rates[3] > rates[2], "{rates:?}");
}

/// A meter that is set between two turns has fewer steps for its first mean:
/// here two of 20,000 and of what the first of them leaves.
#[test]
fn a_meter_set_between_turns() {
    let network = network();
    let mut case = metered(Setting::Alinea(ALINEA));
    step(&network, &mut case, &[0; 2]);
    case.segments[1].set_meter(&network.segments[1], Setting::Alinea(ALINEA));
    assert_eq!(case.segments[1].collected, collected(0, 0));
    case.segments[1].rate = 3_000;
    let mut sum = 0;
    for _ in 1..3 {
        sum += case.segments[1].count;
        step(&network, &mut case, &[0; 2]);
    }
    assert_eq!(case.segments[1].collected, collected(sum, 2));
    let present = case.segments[1].count;
    step(&network, &mut case, &[0; 2]);
    let q = 100 * (60_000 - sum as i64) / 2_000;
    assert_eq!(case.segments[1].rate as i64, 3_000 + q);
    assert_eq!(case.segments[1].collected, collected(present, 1));
}

/// Segment 1, and a ramp that is open or fixed.
#[test]
fn only_alinea_collects() {
    for (setting, rate) in [(Setting::Open, 6_000), (Setting::Fixed(700), 700)] {
        let mut case = metered(setting);
        for _ in 0..4 {
            step(&network(), &mut case, &[0; 2]);
        }
        assert_eq!(case.segments[1].rate, rate);
        for state in &case.segments {
            assert_eq!(state.collected, collected(0, 0));
        }
    }
}
