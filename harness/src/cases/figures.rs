//! Counts, queues, speeds and signs of one segment.

use crate::random::Random;
use oracle::case::{SegmentState, Sign};
use oracle::file::{Curve, Segment};

/// N in mv: empty, at, just below or just above a density that matters, or
/// any, past 200 too.
pub fn count(random: &mut Random, segment: &Segment) -> u64 {
    let metres = segment.lane_metres();
    let density = match random.below(8) {
        0 => 0,
        1 | 2 => u64::from(segment.jam),
        3 => u64::from(segment.critical),
        4 => 200,
        5 => random.between(1, 199),
        6 => return random.between(0, u64::from(segment.jam) * metres),
        _ => return 200 * metres + random.below(10_000_000),
    };
    beside(random, density * metres)
}

/// w in mv: none, about what a step releases, or many. A queue may stand
/// where no origin is.
pub fn queue(random: &mut Random, segment: &Segment) -> u64 {
    let most = u64::from(segment.most_released);
    match random.below(6) {
        0 => 0,
        1 => beside(random, most),
        2 => random.edge(0, 1_000_000),
        3 => random.edge(0, 1_000_000_000),
        _ => random.between(0, 2 * most),
    }
}

/// v in 1,000..F: the ends and their neighbours, whole numbers, numbers just
/// below a whole one, or any bits.
pub fn speed(random: &mut Random, free_speed: u32) -> f64 {
    let (least, most) = (1_000.0, f64::from(free_speed));
    let whole = random.between(1_000, u64::from(free_speed)) as f64;
    let speed = match random.below(8) {
        0 => least,
        1 => most,
        2 => least.next_up(),
        3 => most.next_down(),
        4 => whole,
        5 => whole.next_down(),
        _ => f64::from_bits(random.between(least.to_bits(), most.to_bits())),
    };
    speed.clamp(least, most)
}

/// A sign: dark, or shown at the ends and between.
pub fn sign(random: &mut Random) -> Sign {
    match random.once_in(3) {
        true => Sign::Dark,
        false => Sign::Shown {
            limit: random.edge(20, 200),
            compliance: random.edge(0, 1000) as i64 - 500,
        },
    }
}

/// Speed or sign by an entry of the curve: s is the entry or a number beside
/// it, or a sign slower than s is the entry, where there is one.
pub fn put_at_entry(
    random: &mut Random,
    curve: &Curve,
    segment: &Segment,
    state: &mut SegmentState,
) {
    let entry = u64::from(curve[telling_density(random, curve, segment)]);
    let free_speed = f64::from(curve[0]);
    if random.once_in(2) {
        let whole = match random.once_in(2) {
            true => entry,
            false => beside(random, entry),
        };
        let speed = whole as f64 + fraction(random);
        state.speed = speed.clamp(1_000.0, free_speed);
        state.sign = Sign::Dark;
    } else if let Some(sign) = sign_at(random, entry) {
        if state.whole_speed() <= entry {
            state.speed = free_speed;
        }
        state.sign = sign;
    }
}

/// C, the next one, one on a flat stretch past C, up to J, or any.
fn telling_density(random: &mut Random, curve: &Curve, segment: &Segment) -> usize {
    let (critical, jam) = (usize::from(segment.critical), usize::from(segment.jam));
    let flat = |&at: &usize| {
        let entry = curve[at];
        (1_000..curve[critical]).contains(&entry) && entry == curve[at - 1]
    };
    let mut flats = (critical + 1..=jam).filter(flat);
    let any_flat = random.below(flats.clone().count().max(1) as u64) as usize;
    match (random.below(5), flats.nth(any_flat)) {
        (0, _) => critical,
        (1, _) => critical + 1,
        (2, Some(flat)) => flat,
        (3, _) => random.between(critical as u64, jam as u64) as usize,
        _ => random.below(curve.len() as u64) as usize,
    }
}

/// A sign of exactly that speed in m/h, where there is one.
fn sign_at(random: &mut Random, speed: u64) -> Option<Sign> {
    let shows =
        |limit: &u64| speed.is_multiple_of(*limit) && (500..=1500).contains(&(speed / limit));
    let limits: Vec<u64> = (20..=200).filter(shows).collect();
    let limit = *limits.get(random.below(limits.len().max(1) as u64) as usize)?;
    let compliance = (speed / limit) as i64 - 1000;
    Some(Sign::Shown { limit, compliance })
}

/// A binary64 number in 0..1, all its bits random.
pub fn fraction(random: &mut Random) -> f64 {
    (random.number() >> 11) as f64 / (1_u64 << 53) as f64
}

/// The number or one beside it.
fn beside(random: &mut Random, number: u64) -> u64 {
    (number + random.below(3)).saturating_sub(1)
}
