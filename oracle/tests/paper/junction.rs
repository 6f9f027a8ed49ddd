//! A step where freeways meet and part, worked out by hand.

use crate::lent::Lent;
use crate::networks::{followers, junction, three_segments};
use crate::step::three_segment_start;
use crate::study::{ask, meter, number, room, start, step as step_call};
use oracle::book::{Book, Question};
use oracle::case::{Case, Setting};
use oracle::network::{Network, Origin};
use oracle::step::{entering::Entering, flows, speed, step};
use oracle::study::{self, Study};

/// mv, m/h and mv at the start.
const COUNTS: [u64; 5] = [60_000, 40_000, 30_000, 10_000, 30_000];
const SPEEDS: [u64; 5] = [90_000, 45_000, 60_000, 80_000, 72_000];
const QUEUES: [u64; 5] = [0, 0, 1_000, 0, 0];

fn started() -> (Network, Case) {
    let network = junction();
    let case = Case::start(&network, &COUNTS, &SPEEDS, &QUEUES);
    (network, case)
}

fn book() -> Book {
    let lists: [&[u64]; 3] = [&COUNTS, &SPEEDS, &QUEUES];
    start(&junction(), room(5), lists).expect("a good start")
}

/// Each segment lets N × s ÷ 180,000 mv out. Of the 10,000 of segment 3 its
/// off-ramp takes 770; of the rest, 9,230, the first follower gets 3,073 and
/// the second what remains.
#[test]
fn whole_figures_of_a_step() {
    let (network, mut case) = started();
    step(&network, &mut case, &[3_000, 5_000, 500, 0, 0]);
    let figures = |figure: fn(&oracle::case::SegmentState) -> u64| {
        let all: Vec<u64> = case.segments.iter().map(figure).collect();
        all
    };
    let outflows = [30_000, 10_000, 10_000, 4_444, 12_000];
    assert_eq!(figures(|state| state.last_outflow), outflows);
    assert_eq!(
        figures(|state| state.last_release),
        [3_000, 4_000, 1_500, 0, 0]
    );
    assert_eq!(figures(|state| state.queue), [0, 1_000, 0, 0, 0]);
    let counts = [33_000, 34_000, 61_500, 8_629, 24_157];
    assert_eq!(figures(|state| state.count), counts);
    assert_eq!(case.exits, 770 + 4_444 + 12_000);
    assert_eq!((case.arrivals, case.time), (8_500, 1_710_000));
}

/// u of segment 3 is (30,000 × 90,000 + 10,000 × 45,000) ÷ 40,000 = 78,750, its
/// ρ' (100 + 900) ÷ 40 = 25. D is 60,000 × (ρ' − ρ) ÷ (ρ + 40).
#[test]
fn speeds_of_a_step() {
    let (network, mut case) = started();
    step(&network, &mut case, &[3_000, 5_000, 500, 0, 0]);
    // The density ahead of segment 1 falls from 60 to 30: kept at F.
    assert_eq!(case.segments[0].speed, 100_000.0);
    assert_eq!(case.segments[1].speed, 45_000.0 + 27_500.0 + 7_500.0);
    let pull = |v: f64, u: f64| ((10.0 / 1_800_000.0) * v) * (u - v);
    let anticipation = (60_000.0 * -5.0) / 70.0;
    let merging = ((183_000.0 / 1_000_000.0) * 60_000.0) / 70.0;
    let third = ((80_000.0 + pull(60_000.0, 78_750.0)) - anticipation) - merging;
    assert_eq!(case.segments[2].speed, third);
    let fourth = 90_000.0 + pull(80_000.0, 60_000.0);
    assert_eq!(case.segments[3].speed, fourth);
    let fifth = 86_000.0 + pull(72_000.0, 60_000.0);
    assert_eq!(case.segments[4].speed, fifth);
}

/// Mean by outflow; one alone as it is; v itself where nothing flows.
#[test]
fn speed_of_those_that_enter() {
    let entering = |list: &[(u64, f64)]| {
        let mut all = Entering::default();
        for &(outflow, speed) in list {
            all.add(0, outflow, speed);
        }
        all.speed(50_000.0)
    };
    assert_eq!(entering(&[]), 50_000.0);
    assert_eq!(entering(&[(0, 70_000.1)]), 70_000.1);
    assert_eq!(entering(&[(3, 70_000.1)]), 70_000.1);
    assert_eq!(entering(&[(0, 70_000.0), (0, 80_000.0)]), 50_000.0);
    assert_eq!(entering(&[(0, 70_000.0), (1, 80_000.0)]), 80_000.0);
    assert_eq!(entering(&[(1_000, 60_000.0), (3_000, 80_000.0)]), 75_000.0);
    let three = [(7, 1_000.1), (11, 2_000.2), (13, 3_000.3)];
    let sum = (7.0 * 1_000.1 + 11.0 * 2_000.2) + 13.0 * 3_000.3;
    assert_eq!(entering(&three), sum / 31.0);
}

#[test]
fn density_of_two_followers() {
    assert_eq!(speed::density_of_two(30.0, 10.0), 25.0);
    assert_eq!(speed::density_of_two(0.0, 10.0), 10.0);
    assert_eq!(speed::density_of_two(0.0, 0.0), 0.0);
}

#[test]
fn parts_of_the_rest() {
    let parts = |share, rest| flows::parts(followers([4, 5, share]), rest);
    assert_eq!(parts(333, 9_230), [3_073, 6_157]);
    assert_eq!(parts(0, 9_230), [0, 9_230]);
    assert_eq!(parts(1000, 9_230), [9_230, 0]);
    assert_eq!(parts(999, 1), [0, 1]);
}

/// A segment that enters with share 0 counts: its outflow and its speed have
/// their part in u, and its follower is no mainstream origin.
#[test]
fn a_share_of_none_enters() {
    let mut network = junction();
    network.segments[2].followers.share = 0;
    network.segments[3].origin = true;
    network.segments[3].most_released = 1;
    assert_eq!(network.origin(3), Origin::Ramp);
    let mut case = Case::start(&network, &COUNTS, &SPEEDS, &QUEUES);
    step(&network, &mut case, &[0; 5]);
    assert_eq!(case.segments[3].count, 10_000 - 4_444);
    assert_eq!(case.segments[4].count, 30_000 + 9_230 - 12_000);
    let slower = 90_000.0 + ((10.0 / 1_800_000.0) * 80_000.0) * -20_000.0;
    assert_eq!(case.segments[3].speed, slower);
}

/// Segment 2 has none before it: its speed bounds it by 2 × 1,500 × 180 × 10 ÷
/// 3600 mv, however full it is, and its release does not slow it.
#[test]
fn another_mainstream_origin() {
    let network = junction();
    let kinds = [Origin::Mainstream, Origin::Mainstream, Origin::Ramp];
    assert_eq!([0, 1, 2].map(|place| network.origin(place)), kinds);
    let speeds = [90_000, 1_500, 60_000, 80_000, 72_000];
    let mut case = Case::start(&network, &COUNTS, &speeds, &QUEUES);
    case.segments[1].count = 180_000;
    step(&network, &mut case, &[0, 4_000, 0, 0, 0]);
    assert_eq!(case.segments[1].last_release, 1_500);
    let (desired, ahead) = (98_500.0, (60_000.0 * -150.0) / 220.0);
    let speed = (1_500.0 + 0.5 * desired) - ahead;
    assert_eq!(case.segments[1].speed, speed);
}

/// Row 19, and 20 where a segment is before.
#[test]
fn meters() {
    let mut book = book();
    for segment in [1, 2, 4, 5] {
        assert_eq!(number(&mut book, meter(segment, Setting::Open)), 19);
    }
    assert_eq!(number(&mut book, meter(3, Setting::Open)), 0);
    assert_eq!(number(&mut book, meter(3, Setting::Fixed(2_001))), 20);
}

/// A chain of version 2 steps as the same chain of version 1.
#[test]
fn chains_of_both_versions() {
    let one = three_segments();
    let two = Network {
        version: 2,
        ..one.clone()
    };
    let (mut first, mut second) = (three_segment_start(), three_segment_start());
    for turn in 0..40 {
        let arrivals = [9_000 + turn, 2_500 * (turn % 3), 0];
        step(&one, &mut first, &arrivals);
        step(&two, &mut second, &arrivals);
        assert_eq!(first, second);
    }
}

/// Vehicles balance over a long line, and arrays follow the book.
#[test]
fn a_line_of_three_hundred_steps() {
    let mut book = book();
    let mut lent = Lent::free(5);
    assert_eq!(lent.start(&junction(), [&COUNTS, &SPEEDS, &QUEUES]), 0);
    for turn in 0..300_u32 {
        let arrivals = [turn * 7_919 % 9_000, turn * 104_729 % 7_000, turn, 0, 0];
        let call = step_call(&arrivals);
        assert_eq!(number(&mut book, call), 0);
        assert_eq!(lent.number(&call), 0);
        let case = book.live().case();
        let present = case.in_segments() + case.in_queues() + case.exits;
        assert_eq!(present, 171_000 + case.arrivals);
        assert_eq!(
            study::read(&lent.words, &lent.speeds),
            Ok(Study::of_book(&book))
        );
    }
    let report = ask(0, &Question::Case);
    assert_eq!(lent.call(&report), book.call(&report));
    lent.assert_past();
}
