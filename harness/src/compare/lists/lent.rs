//! The arrays that a list is lent: exactly as long as its largest network
//! needs, longer, or one word or one speed too short for it.

use crate::arrays::Arrays;
use crate::random::Random;
use crate::study::{speeds_for, words_for};

/// Arrays full of garbage for n segments. In every second turn they end where
/// what is lent ends, so that a memory checker sees any touch past it.
pub fn arrays(random: &mut Random, n: usize, turn: u64) -> Arrays {
    let (mut words, mut speeds) = (words_for(n), speeds_for(n));
    match turn / 2 % 4 {
        0 => {}
        1 => {
            words += random.edge(0, 200) as usize;
            speeds += random.edge(0, 20) as usize;
        }
        2 if n > 1 => words -= 1,
        3 if n > 1 => speeds -= 1,
        _ => {}
    }
    Arrays::garbage(random, words, speeds, !turn.is_multiple_of(2))
}
