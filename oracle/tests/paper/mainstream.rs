//! What bounds the origin of segment 1, worked out by hand.
//!
//! With H 2 and T 10 the bound is the whole part of y × g ÷ 180.

use crate::networks;
use oracle::case::{Case, SegmentState, Sign};
use oracle::network::{chain, Curve, Network, Origin};
use oracle::step::origin::{bound, limiting_speed, speed_bound};
use oracle::step::step;

/// 500 m/h less at each density: 85,000 at C, which is 30, and 10,000 at J,
/// which is 180.
fn falling() -> Curve {
    std::array::from_fn(|density| 100_000 - 500 * density as u32)
}

/// One segment with that curve.
fn with(curve: Curve) -> Network {
    let mut network = networks::tallies();
    network.curves = vec![curve];
    network
}

/// The bound where y is that many m/h.
fn at(curve: Curve, y: u64) -> Option<u64> {
    let network = with(curve);
    speed_bound(&network, &network.segments[0], y)
}

/// Segment 1 at a speed in m/h, under a sign.
fn state(speed: f64, limit: u64, compliance: i64) -> SegmentState {
    let start = Case::start(&networks::tallies(), &[20_000], &[90_000], &[0]);
    SegmentState {
        speed,
        sign: Sign::of(limit, compliance),
        ..start.segments[0].clone()
    }
}

#[test]
fn the_speed_that_limits() {
    assert_eq!(limiting_speed(&state(60_000.9, 0, 0)), 60_000);
    assert_eq!(limiting_speed(&state(60_000.9, 50, 100)), 55_000);
    assert_eq!(limiting_speed(&state(60_000.9, 70, -100)), 60_000);
    assert_eq!(limiting_speed(&state(60_000.9, 60, 0)), 60_000);
    assert_eq!(limiting_speed(&state(1_000.0, 20, -500)), 1_000);
}

/// By s, then by the sign: g is 80 at 60,000 m/h and 90 at 55,000.
#[test]
fn by_speed_and_by_sign() {
    let network = with(falling());
    let bound = |speed, limit, compliance| bound(&network, 0, &state(speed, limit, compliance));
    assert_eq!(bound(60_000.9, 0, 0), Some(26_666));
    assert_eq!(bound(60_000.9, 70, -100), Some(26_666));
    assert_eq!(bound(60_000.9, 50, 100), Some(27_500));
    assert_eq!(bound(90_000.0, 87, -23), Some(14_166));
    assert_eq!(bound(90_000.0, 85, 0), None);
    assert_eq!(bound(84_999.9, 85, 0), Some(14_166));
}

/// The entry at C itself is no longer below it; just below it g is C.
#[test]
fn about_the_entry_at_the_critical_density() {
    assert_eq!(at(falling(), 85_001), None);
    assert_eq!(at(falling(), 85_000), None);
    assert_eq!(at(falling(), 84_999), Some(14_166));
    assert_eq!(at(falling(), 84_500), Some(14_552));
    assert_eq!(at(falling(), 60_001), Some(26_333));
}

/// Entries past J do not count: from 10,000 m/h down g is J.
#[test]
fn the_greatest_density_is_at_most_the_jam_density() {
    assert_eq!(at(falling(), 10_001), Some(9_945));
    assert_eq!(at(falling(), 10_000), Some(10_000));
    assert_eq!(at(falling(), 9_500), Some(9_500));
    assert_eq!(at(falling(), 1_000), Some(1_000));
}

/// Where several entries are equal to y the last of them counts: 99, then J.
#[test]
fn on_a_flat_stretch() {
    let mut curve = [40_000; 201];
    curve[..=99].fill(70_000);
    curve[..=30].fill(100_000);
    assert_eq!(at(curve, 100_000), None);
    assert_eq!(at(curve, 99_999), Some(16_666));
    assert_eq!(at(curve, 70_001), Some(11_666));
    assert_eq!(at(curve, 70_000), Some(38_500));
    assert_eq!(at(curve, 40_001), Some(22_000));
    assert_eq!(at(curve, 40_000), Some(40_000));
    curve[..=99].fill(70_000);
    assert_eq!(at(curve, 70_000), None);
    assert_eq!(at([100_000; 201], 99_999), Some(99_999));
}

/// The release of a step of one segment, 100,000 mv waiting: N and Q in mv,
/// speed in m/h.
fn released(count: u64, speed: u64, most: u32) -> u64 {
    let mut network = with(falling());
    network.segments[0].most_released = most;
    let mut case = Case::start(&network, &[count], &[speed], &[60_000]);
    step(&network, &mut case, &[40_000]);
    case.segments[0].last_release
}

/// The least of w + d, Q and the bound, however full the segment is.
#[test]
fn the_least_of_three() {
    for count in [0, 20_000, 180_000] {
        assert_eq!(released(count, 60_000, 26_667), 26_666);
        assert_eq!(released(count, 60_000, 26_666), 26_666);
        assert_eq!(released(count, 60_000, 26_665), 26_665);
        assert_eq!(released(count, 85_000, 99_999), 99_999);
        assert_eq!(released(count, 85_000, 300_000), 100_000);
    }
}

/// A ramp is bounded by room and never by speed; nothing enters where there
/// is no origin.
#[test]
fn other_segments() {
    let mut network = with(falling());
    network.segments = chain(vec![network.segments[0].clone(); 3]);
    network.segments[2].origin = false;
    network.segments[2].most_released = 0;
    let kinds = [Origin::Mainstream, Origin::Ramp, Origin::None];
    assert_eq!([0, 1, 2].map(|place| network.origin(place)), kinds);
    let bound = |place, count| {
        let slow = state(1_000.0, 20, -500);
        bound(&network, place, &SegmentState { count, ..slow })
    };
    assert_eq!([0, 20_000].map(|count| bound(0, count)), [Some(1_000); 2]);
    assert_eq!(bound(0, 180_001), Some(1_000));
    assert_eq!(bound(1, 20_000), Some(6_400));
    assert_eq!(bound(1, 120_000), Some(2_400));
    assert_eq!(
        [180_000, 180_001].map(|count| bound(1, count)),
        [Some(0); 2]
    );
    assert_eq!(bound(2, 20_000), Some(0));
}

/// The same in a step.
#[test]
fn a_step_with_both() {
    let mut network = with(falling());
    network.segments = chain(vec![network.segments[0].clone(); 2]);
    let queues = [10_000, 10_000];
    let mut case = Case::start(&network, &[180_000, 120_000], &[1_500, 1_500], &queues);
    step(&network, &mut case, &[0, 0]);
    let released: Vec<u64> = case.segments.iter().map(|s| s.last_release).collect();
    assert_eq!(released, [1_500, 2_400]);
}
