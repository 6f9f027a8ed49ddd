//! One step against the paper's listing and marked cases, and against
//! figures that were worked out apart from this code.

use crate::networks;
use oracle::case::{Alinea, Case, Collected, SegmentState, Setting, Sign};
use oracle::step::{origin, speed, step};

/// Arrivals of five steps, in mv.
const ARRIVALS: [[u32; 3]; 5] = [
    [9_000, 2_500, 0],
    [9_500, 3_100, 0],
    [0, 7, 0],
    [12_000, 2_500, 0],
    [9_000, 2_500, 0],
];

/// Steps, mv in segments, in queues, arrivals, exits and time.
fn tally(case: &Case) -> [u64; 6] {
    [
        case.steps,
        case.in_segments(),
        case.in_queues(),
        case.arrivals,
        case.exits,
        case.time,
    ]
}

#[test]
fn both_steps_of_the_tallies() {
    let network = networks::tallies();
    let mut case = Case::start(&network, &[20_000], &[90_000], &[5_000]);
    assert_eq!(tally(&case), [0, 20_000, 5_000, 0, 0, 0]);
    step(&network, &mut case, &[4_000]);
    assert_eq!(tally(&case), [1, 16_000, 3_000, 4_000, 10_000, 250_000]);
    assert_eq!(case.segments[0].speed, 95_000.0);
    step(&network, &mut case, &[0]);
    assert_eq!(tally(&case), [2, 10_556, 0, 4_000, 18_444, 440_000]);
    assert_eq!(case.segments[0].speed, 97_500.0);
}

#[test]
fn jam_bound_by_room() {
    let segment = &networks::tallies().segments[0];
    assert_eq!(origin::jam_bound(segment, 20_000), 6_400);
    assert_eq!(origin::jam_bound(segment, 180_000), 0);
    assert_eq!(origin::jam_bound(segment, 180_001), 0);
}

#[test]
fn curve_between_entries() {
    let mut curve = [80_000; 201];
    curve[21..].fill(79_000);
    assert_eq!(speed::curve_speed(&curve, 1_000, 20_500), 79_500.0);
    assert_eq!(speed::curve_speed(&curve, 1_000, 199_999), 79_000.0);
    curve[200] = 500;
    assert_eq!(speed::curve_speed(&curve, 1_000, 200_000), 500.0);
    assert_eq!(speed::curve_speed(&curve, 1_000, 10_u64.pow(12)), 500.0);
}

#[test]
fn sign_and_curve_whichever_is_less() {
    let curve = [80_000; 201];
    let shown = |limit| Sign::Shown {
        limit,
        compliance: -100,
    };
    assert_eq!(shown(70).speed(), Some(63_000));
    let desired = |sign| speed::desired_speed(&curve, 1_000, 0, sign);
    assert_eq!(desired(Sign::Dark), 80_000.0);
    assert_eq!(desired(shown(70)), 63_000.0);
    assert_eq!(desired(shown(100)), 80_000.0);
}

/// The speed equation's every term, an off-ramp, a sign and ALINEA: five
/// steps, speeds by their bits.
#[test]
fn three_segments_for_five_steps() {
    let network = networks::three_segments();
    let mut case = three_segment_start();
    for arrivals in &ARRIVALS {
        step(&network, &mut case, arrivals);
    }
    let figures = |figure: fn(&SegmentState) -> u64| {
        let all: Vec<u64> = case.segments.iter().map(figure).collect();
        all
    };
    let bits = [0x40e91994d3fe5052, 0x40ea40887a7da6b7, 0x40f35bc1c9aa484b];
    assert_eq!(figures(|state| state.count), [30_417, 42_662, 70_822]);
    assert_eq!(figures(|state| state.speed.to_bits()), bits);
    assert_eq!(figures(|state| state.queue), [0, 7_066, 0]);
    assert_eq!(figures(|state| state.rate), [16_000, 400, 0]);
    assert_eq!(figures(|state| state.collected.sum), [0, 47_760, 0]);
    assert_eq!(figures(|state| state.collected.steps), [0, 1, 0]);
    assert_eq!(figures(|state| state.last_outflow), [6_098, 11_127, 17_494]);
    let remainders = [1_302_280, 2_339_400, 1_606_930];
    assert_eq!(figures(|state| state.remainder), remainders);
    assert_eq!(figures(|state| state.last_release), [9_000, 400, 0]);
    assert_eq!(tally(&case), [5, 143_901, 7_066, 50_107, 87_159, 8_735_860]);
}

/// The same for forty steps. The bits of all speeds on the way are folded
/// into one number: it tells any other order of A, B, D and E apart.
#[test]
fn three_segments_for_forty_steps() {
    let network = networks::three_segments();
    let mut case = three_segment_start();
    let mut folded = 0_u64;
    for arrivals in ARRIVALS.iter().cycle().take(40) {
        step(&network, &mut case, arrivals);
        for state in &case.segments {
            folded = folded
                .wrapping_mul(0x100_0000_01b3)
                .wrapping_add(state.speed.to_bits());
        }
    }
    assert_eq!(folded, 0x4e19_fb32_6ba7_a0c0);
    assert_eq!(tally(&case), [40, 95_752, 0, 400_856, 493_123, 47_153_450]);
    let collected = Collected {
        sum: 68_701,
        steps: 2,
    };
    assert_eq!(case.segments[1].collected, collected);
}

/// A jam ahead would bring the speed below 1,000 m/h, an empty road ahead of
/// a jam would bring it above F.
#[test]
fn speeds_are_kept_in_range() {
    let mut network = networks::three_segments();
    network.anticipation = 200;
    network.curves[0].fill(102_000);
    let counts = [9_000, 250_000, 0];
    let mut case = Case::start(&network, &counts, &[2_000, 90_000, 102_000], &[0; 3]);
    step(&network, &mut case, &[0; 3]);
    assert_eq!(case.segments[0].speed, 1_000.0);
    assert_eq!(case.segments[1].speed, 102_000.0);
    assert_eq!(case.segments[2].speed, 102_000.0 - upstream_pull());
}

/// −B of the last segment above: v is F = 102,000 and u 90,000 m/h.
fn upstream_pull() -> f64 {
    ((10.0 / 3_596_400.0) * 102_000.0) * 12_000.0
}

/// Neither through traffic nor the mainstream is bounded by room: past jam
/// density its speed still lets 2 × 1,000 × 180 × 10 ÷ 3600 mv in.
#[test]
fn a_segment_may_be_fuller_than_a_jam() {
    let network = networks::tallies();
    let mut case = Case::start(&network, &[0], &[1_000], &[7_000]);
    case.segments[0].count = 1_000_000;
    step(&network, &mut case, &[1]);
    assert_eq!(case.segments[0].last_release, 1_000);
    assert_eq!(case.segments[0].queue, 6_001);
    assert_eq!(case.segments[0].last_outflow, 5_555);
    assert_eq!(case.segments[0].count, 995_445);
}

/// A start case of three segments; the second has a sign and ALINEA.
pub fn three_segment_start() -> Case {
    let network = networks::three_segments();
    let counts = [45_000, 61_007, 70_011];
    let speeds = [88_000, 71_000, 64_000];
    let mut case = Case::start(&network, &counts, &speeds, &[3_000, 9_001, 0]);
    case.segments[1].sign = Sign::Shown {
        limit: 70,
        compliance: -100,
    };
    let alinea = Setting::Alinea(Alinea {
        target: 40,
        gain: 700,
        least: 400,
        interval: 2,
    });
    case.segments[1].set_meter(&network.segments[1], alinea);
    case
}
