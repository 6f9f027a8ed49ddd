//! Survey files read and written: right ones, and such that 25 or 26 refuses.

mod asked;

use super::Difference;
use crate::damages::{in_turn, SURVEY};
use crate::networks::road;
use crate::random::Random;
use crate::surveys::{put_n, Day, MOST_ROWS};
use asked::{read, write};
use oracle::survey;

/// Numbers of segments outside 1..40.
const NO_SIZES: [u64; 7] = [0, 41, 42, 255, 256, 1 << 32, u64::MAX];
/// 26 of n, and of a list that is not whole rows.
const SIZE: u64 = 26;

pub fn one(random: &mut Random, index: u64) -> Result<(), Difference> {
    let turn = index / 4;
    let day = any_day(random);
    let (n, mut file) = (day.n as u64, day.file());
    match index % 4 {
        0 => right(random, &file, n, &day),
        1 => {
            let damage = in_turn(&SURVEY, turn);
            (damage.apply)(&mut file, 0, random);
            read(random, &file, n, Some(damage.number))
        }
        2 if turn.is_multiple_of(4) => {
            let wrong = wrong_n(random, n);
            read(random, &file, wrong, Some(SIZE))
        }
        2 if turn % 4 == 1 => {
            // A file that is right but for an n which no study has.
            let n = random.one_of(&NO_SIZES) as u8;
            put_n(&mut file, n);
            read(random, &file, n.into(), Some(SIZE))
        }
        2 => {
            let at = random.edge(0, file.len() as u64 - 1) as usize;
            file[at] ^= random.between(1, 255) as u8;
            read(random, &file, n, None)
        }
        _ => wrong_lists(random, day, turn),
    }
}

/// Reader and writer do what the oracle says of any bytes and any n.
pub fn expect_agreement(file: &[u8], n: u64, random: &mut Random) -> Result<(), Difference> {
    read(random, file, n, None)?;
    let numbers = file.as_chunks().0.iter();
    let list: Vec<u32> = numbers.map(|&bytes| u32::from_be_bytes(bytes)).collect();
    write(random, n, &list, None)
}

/// A right file is read, and written back to its own bytes.
fn right(random: &mut Random, file: &[u8], n: u64, day: &Day) -> Result<(), Difference> {
    read(random, file, n, Some(0))?;
    write(random, n, &day.list, Some(0))?;
    let rows = day.rows().len() as u64;
    let same = survey::read(file, n, usize::MAX) == Ok((rows, day.list.clone()))
        && survey::write(n, &day.list, usize::MAX) == Ok(file.to_vec());
    match same {
        true => Ok(()),
        false => Err(differs("not the file of these rows".into(), file)),
    }
}

/// Lists that are refused: n, no whole rows, or too many of them.
fn wrong_lists(random: &mut Random, mut day: Day, turn: u64) -> Result<(), Difference> {
    let n = day.n as u64;
    match turn % 16 {
        0 => {
            day.list.resize(MOST_ROWS * day.n + day.n, 1);
            write(random, n, &day.list, Some(SIZE))
        }
        1 => {
            day.list.resize(MOST_ROWS * day.n, 1);
            write(random, n, &day.list, Some(0))
        }
        2..8 if n > 1 => {
            let more = random.edge(1, n - 1);
            day.list.resize(day.list.len() + more as usize, 1);
            write(random, n, &day.list, Some(SIZE))
        }
        _ => {
            let n = random.one_of(&NO_SIZES);
            write(random, n, &day.list, Some(SIZE))
        }
    }
}

/// Few rows of any size, so that the longest lists come up with few segments.
fn any_day(random: &mut Random) -> Day {
    let segments = match random.once_in(4) {
        true => 1,
        false => random.edge(1, 40),
    };
    let rows = random.edge(0, 12);
    let network = road(random, segments);
    let mut day = Day::of(random, &network, rows);
    for arrival in &mut day.list {
        if random.once_in(8) {
            *arrival = random.number() as u32;
        }
    }
    day
}

/// Any n but this one.
fn wrong_n(random: &mut Random, n: u64) -> u64 {
    match random.below(3) {
        0 => random.one_of(&NO_SIZES),
        1 => n + 256,
        _ => random.outside(n, n, 41),
    }
}

fn differs(what: String, input: &[u8]) -> Difference {
    Difference {
        what,
        input: input.to_vec(),
    }
}
