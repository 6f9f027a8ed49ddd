//! One file or list asked of both sides, on every kind of room: number, list,
//! bytes, and what stays.

use super::differs;
use crate::compare::{Difference, BUFFER};
use crate::engine::asked;
use crate::random::Random;
use crate::reached;
use oracle::survey;

/// The reader. `expected` is the number before 24 where that is known without
/// the oracle.
pub fn read(
    random: &mut Random,
    file: &[u8],
    n: u64,
    expected: Option<u64>,
) -> Result<(), Difference> {
    let read = survey::read(file, n, usize::MAX);
    let number = number(&read, expected, file)?;
    let (rows, list) = read.unwrap_or_default();
    let length = list.len();
    for (room, words) in [
        (length, 1),
        (any_room(random, length), 2),
        (length + 3, random.below(2) as usize),
        (length.saturating_sub(1), 1),
    ] {
        let mut lent = (any_list(random, room), vec![random.number(); words]);
        let mut after = lent.clone();
        let answer = with_room(number, room >= length && words >= 1);
        if answer == 0 {
            after.0[..length].copy_from_slice(&list);
            after.1[0] = rows;
        }
        let (function, engine) = asked!(survey_read(file, n, &mut lent.0, &mut lent.1));
        if engine != answer || lent != after {
            let what = format!("n {n}, room for {room} and {words}: expected {answer}");
            return Err(differs(format!("{what}, engine {engine}"), file));
        }
        reached::note(function, engine);
    }
    Ok(())
}

/// The writer likewise.
pub fn write(
    random: &mut Random,
    n: u64,
    list: &[u32],
    expected: Option<u64>,
) -> Result<(), Difference> {
    let bytes = list.iter().flat_map(|number| number.to_be_bytes());
    let input: Vec<u8> = bytes.collect();
    let written = survey::write(n, list, usize::MAX);
    let number = number(&written, expected, &input)?;
    let file = written.unwrap_or_default();
    let length = file.len();
    for room in [length, length.saturating_sub(1), any_room(random, length)] {
        let mut out = vec![random.number() as u8; room];
        let mut after = out.clone();
        let answer = with_room(number, room >= length);
        if answer == 0 {
            after[..length].copy_from_slice(&file);
        }
        let (function, engine) = asked!(survey_write(n, list, &mut out));
        if engine != answer || out != after {
            let what = format!("n {n}, room for {room}: expected {answer}, engine {engine}");
            return Err(differs(what, &input));
        }
        reached::note(function, engine);
    }
    Ok(())
}

/// The oracle's number, which is the expected one.
fn number<T>(
    answer: &Result<T, u8>,
    expected: Option<u64>,
    input: &[u8],
) -> Result<u64, Difference> {
    let number = answer.as_ref().err().map_or(0, |&number| u64::from(number));
    match expected {
        Some(expected) if expected != number => {
            let what = format!("expected {expected}, oracle {number}");
            Err(differs(what, input))
        }
        _ => Ok(number),
    }
}

/// 24 comes last.
fn with_room(number: u64, enough: bool) -> u64 {
    match number {
        0 if !enough => BUFFER,
        number => number,
    }
}

/// None at all, any room too little, or more than enough.
fn any_room(random: &mut Random, needed: usize) -> usize {
    random.edge(0, needed as u64 + 20) as usize
}

fn any_list(random: &mut Random, length: usize) -> Vec<u32> {
    let first = random.number() as u32;
    let places = 0..length as u32;
    places.map(|place| first.wrapping_add(place)).collect()
}
