//! Refused steps: the right number, and not a bit of the arrays changed.

mod order;

use super::both::Both;
use super::Difference;
use crate::calls::Call;
use crate::cases::arrivals;
use crate::made::{self, Made};
use crate::random::Random;

pub fn one(random: &mut Random, index: u64) -> Result<(), Difference> {
    let turn = index / 8;
    match index % 8 {
        0 | 1 => damaged_case(random, 2 * turn + index % 8),
        2 => {
            let made = made::damaged_network(random, turn);
            step(random, &made)
        }
        3 => {
            let made = match turn % 3 {
                0 => made::marks(random, turn / 3),
                _ => made::lengths(random, turn - turn / 3),
            };
            step(random, &made)
        }
        4 | 5 => order::one(random, 2 * turn + index % 8 - 4),
        _ => {
            let made = made::flipped(random, 2 * turn + index % 8 - 6);
            step(random, &made)
        }
    }
}

/// A step with right arrivals is answered as the arrays demand, or as the
/// oracle says where they are any.
fn step(random: &mut Random, made: &Made) -> Result<(), Difference> {
    let call = Call::Step(arrivals(random, &made.study.network).into());
    let mut both = Both::new(made.arrays.clone());
    let answer = match made.step_number() {
        Some(number) => both.expect(call, number),
        None => both.take(call),
    };
    answer.map_err(|difference| difference.of(&made.what))?;
    Ok(())
}

/// Every damage to a live case in turn; with the damage undone the step is
/// taken.
fn damaged_case(random: &mut Random, turn: u64) -> Result<(), Difference> {
    let made = made::case(random, turn, 0);
    step(random, &made)?;
    let undone = Made {
        what: format!("{}, undone", made.what),
        arrays: made.study.laid(random),
        number: Some(0),
        study: made.study,
    };
    step(random, &undone)
}
