//! A line with a network file and its number.

use super::arguments::Words;
use crate::engine::{network_check, network_place};

/// Both functions give the file this number.
pub fn ask(words: &mut Words) -> Result<(), String> {
    let number: u64 = words.number()?;
    let file = words.bytes()?;
    let mut place = [u64::MAX; 5];
    let checked = network_check(&file);
    let placed = network_place(&file, &mut place);
    match (checked, placed, place[0], place[4]) == (number, 0, number, u64::MAX) {
        true => Ok(()),
        false => Err(format!(
            "expected {number}, check {checked}, place {place:?}"
        )),
    }
}
