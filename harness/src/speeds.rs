//! Speeds that nobody reads, and what is no number.
//!
//! A proof knows one NaN only, so that a call which rewrote the bits of a NaN
//! would still be proved. Here NaNs of every kind are lent, and all speeds are
//! compared by their bits.

use crate::random::Random;

/// Bits of an infinity, and the bit that makes a NaN quiet.
const INFINITE: u64 = 0x7ff0_0000_0000_0000;
const QUIET: u64 = 1 << 51;

/// So many speeds that nobody reads: any bits, or such that look right. In
/// one array of four every second one is a NaN.
pub fn unread(random: &mut Random, count: usize) -> Vec<f64> {
    let with_nans = random.once_in(4);
    let mut speed = || match random.below(4) {
        0 | 1 if with_nans => no_number(random),
        0 | 1 => f64::from_bits(random.number()),
        _ => random.between(1_000, 200_000) as f64,
    };
    (0..count).map(|_| speed()).collect()
}

/// Puts NaNs into some of the speeds, anywhere among them.
pub fn strew(random: &mut Random, speeds: &mut [f64]) {
    if speeds.is_empty() {
        return;
    }
    for _ in 0..=random.below(8) {
        let at = random.below(speeds.len() as u64) as usize;
        speeds[at] = no_number(random);
    }
}

/// A NaN of either kind.
pub fn no_number(random: &mut Random) -> f64 {
    match random.once_in(2) {
        true => quiet(random),
        false => signalling(random),
    }
}

/// A quiet NaN of either sign with any payload, none among them.
pub fn quiet(random: &mut Random) -> f64 {
    let payload = random.edge(0, QUIET - 1);
    signed(random, QUIET | payload)
}

/// A signalling NaN of either sign; its payload is not 0.
pub fn signalling(random: &mut Random) -> f64 {
    let payload = random.edge(1, QUIET - 1);
    signed(random, payload)
}

fn signed(random: &mut Random, mantissa: u64) -> f64 {
    f64::from_bits(random.below(2) << 63 | INFINITE | mantissa)
}
