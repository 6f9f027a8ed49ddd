//! Write: the network that stands in a study's words as a file's bytes, and
//! what stays.

use super::both::Both;
use super::{Difference, BUFFER};
use crate::calls::Call;
use crate::made::{self, Made};
use crate::random::Random;
use oracle::file;

pub fn one(random: &mut Random, index: u64) -> Result<(), Difference> {
    let turn = index / 8;
    let made = match index % 8 {
        0..=2 => made::live(random),
        3 => made::sound(random),
        4 => made::damaged_network(random, turn),
        5 => made::any(random, turn),
        6 => made::garbage(random, turn),
        _ => made::other_counts(random),
    };
    let what = made.what.clone();
    write(random, made).map_err(|difference| difference.of(&what))
}

/// A sound study gives back its network's file, whatever its cases are, or 24.
fn write(random: &mut Random, made: Made) -> Result<(), Difference> {
    let file = file::write(&made.study.network);
    let room = room(random, file.len());
    let mut both = Both::new(made.arrays);
    let number = match made.number {
        Some(0) if room < file.len() => BUFFER,
        Some(number) => number,
        None => return both.take(Call::Write { room }).map(|_| ()),
    };
    let answer = both.expect(Call::Write { room }, number)?;
    match number == 0 && answer.bytes[..file.len()] != file {
        true => Err(both.differs("not the network's file")),
        false => Ok(()),
    }
}

/// Exactly enough, more, a byte too few, none at all, or any number too few.
fn room(random: &mut Random, length: usize) -> usize {
    match random.below(8) {
        0..=3 => length,
        4 => length + random.edge(1, 100) as usize,
        5 => length - 1,
        6 => 0,
        _ => random.below(length as u64) as usize,
    }
}
