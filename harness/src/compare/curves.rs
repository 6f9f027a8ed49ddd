//! The two curve calls: number, place of the curve, and what stays.

use super::{Difference, BUFFER};
use crate::damages::{in_turn, FILE};
use crate::draft::{Draft, CURVE, HEAD};
use crate::engine::asked;
use crate::networks::{network, ANY};
use crate::random::Random;
use crate::reached;
use oracle::file;

/// Curve numbers to ask for beside 0..=9: ends of number widths.
const FAR: [u64; 6] = [255, 256, 1 << 32, (1 << 32) + 1, 1 << 63, u64::MAX];

/// Two files in three are valid, the third is damaged.
pub fn one(random: &mut Random, index: u64) -> Result<(), Difference> {
    let mut draft = Draft::new(network(random, ANY));
    let curves = draft.network.curves.len() as u64;
    let mut file_number = 0;
    if index % 3 == 2 {
        let damage = in_turn(&FILE, index / 3);
        draft = Draft::new(network(random, damage.shape()));
        let place = damage.place(&draft.network, random);
        (damage.apply)(&mut draft, place, random);
        file_number = damage.number;
        if random.once_in(10) {
            draft.bytes.truncate(random.below(HEAD as u64) as usize);
            file_number = 1;
        }
    }
    for curve in (0..=9).chain(FAR) {
        let expected = match file_number {
            0 if curve < curves => 0,
            0 => 10,
            number => number,
        };
        numbers(&draft.bytes, curve, expected)?;
        places(&draft.bytes, curve, expected, random)?;
    }
    Ok(())
}

/// Both curve calls do what the oracle says of the file.
pub fn expect_agreement(file: &[u8], curve: u64, random: &mut Random) -> Result<(), Difference> {
    let expected = u64::from(file::curve_number(file, curve));
    numbers(file, curve, expected)?;
    places(file, curve, expected, random)
}

/// Both sides give file and curve number the expected number.
fn numbers(file: &[u8], curve: u64, expected: u64) -> Result<(), Difference> {
    let (function, engine) = asked!(network_curve_number(file, curve));
    let oracle = u64::from(file::curve_number(file, curve));
    let place = (expected == 0).then(|| (HEAD + CURVE * curve as usize, CURVE));
    if engine == expected && oracle == expected && file::curve(file, curve) == place {
        reached::note(function, engine);
        return Ok(());
    }
    Err(Difference {
        what: format!(
            "curve number {curve}: expected {expected}, engine {engine}, oracle {oracle}"
        ),
        input: file.to_vec(),
    })
}

/// The engine fills two places of a lent array, and only where it accepts.
fn places(file: &[u8], curve: u64, number: u64, random: &mut Random) -> Result<(), Difference> {
    for length in [0, 1, 2, 3, 7] {
        let before: Vec<u64> = (0..length).map(|_| random.number()).collect();
        let mut expected = before.clone();
        let answer = match number {
            0 if length < 2 => BUFFER,
            number => number,
        };
        if answer == 0 {
            expected[0] = HEAD as u64 + CURVE as u64 * curve;
            expected[1] = CURVE as u64;
        }
        let mut place = before;
        let (function, engine) = asked!(network_curve(file, curve, &mut place));
        if engine != answer || place != expected {
            return Err(Difference {
                what: format!(
                    "curve {curve} into {length} places: expected {answer} and {expected:?}, \
                     engine {engine} and {place:?}"
                ),
                input: file.to_vec(),
            });
        }
        reached::note(function, engine);
    }
    Ok(())
}
