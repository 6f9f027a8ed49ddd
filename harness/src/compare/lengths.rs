//! Valid files cut short or made longer.

use super::{expect_number, Difference};
use crate::draft::{record_length, Draft, CURVE, HEAD};
use crate::networks::{network, ANY};
use crate::random::Random;

pub fn one(random: &mut Random, index: u64) -> Result<(), Difference> {
    let file = Draft::new(network(random, ANY)).bytes;
    let length = length(random, &file, index);
    let mut changed = file.clone();
    changed.truncate(length);
    while changed.len() < length {
        let missing = (length - changed.len()).min(file.len());
        match random.below(3) {
            0 => changed.resize(length, 0),
            1 => changed.extend_from_slice(&file[file.len() - missing..]),
            _ => changed.extend((0..missing).map(|_| random.number() as u8)),
        }
    }
    let expected = match length {
        0..HEAD => 1,
        _ if length == file.len() => 0,
        _ => 5,
    };
    let what = format!("a file of {} bytes brought to {length}", file.len());
    expect_number(&changed, expected, &what)
}

/// 0..=40 each in turn, each length within 40 of the file's in turn, an edge
/// between parts and one beside it, or any.
fn length(random: &mut Random, file: &[u8], index: u64) -> usize {
    let turn = (index / 4) as usize;
    let full = file.len();
    match index % 4 {
        0 => turn % 41,
        1 => full - 40 + turn % 81,
        2 => part_edge(random, file) + turn % 3 - 1,
        _ => random.below(2 * full as u64) as usize,
    }
}

/// Where a curve or a record ends.
fn part_edge(random: &mut Random, file: &[u8]) -> usize {
    let curves = u64::from(file[7]);
    let records = u64::from(file[6]);
    let record = record_length(u16::from(file[4]));
    match random.once_in(2) {
        true => HEAD + CURVE * random.edge(0, curves) as usize,
        false => file.len() - record * random.edge(0, records) as usize,
    }
}
