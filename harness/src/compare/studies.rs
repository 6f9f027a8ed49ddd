//! Studies of any content: sound, damaged, flipped, garbage. Every call but
//! Start is 12 exactly where the oracle says that the study is not sound, and
//! a refused call leaves every word and every bit.

use super::both::Both;
use super::Difference;
use crate::calls::{Call, Scene, KINDS};
use crate::made::{self, Made, NOT_SOUND};
use crate::networks::{network, ANY};
use crate::random::Random;

pub fn one(random: &mut Random, index: u64) -> Result<(), Difference> {
    let made = made::any(random, index);
    let what = made.what.clone();
    ask(made, random).map_err(|difference| difference.of(&what))
}

/// Every kind of call once, from any of them on in their order, then Start.
fn ask(made: Made, random: &mut Random) -> Result<(), Difference> {
    let brought = [network(random, ANY)];
    let scene = Scene {
        network: &made.study.network,
        filled: made.study.marks.map(|mark| mark == 1),
        brought: &brought,
    };
    let mut both = Both::new(made.arrays);
    let sound = match made.number {
        Some(number) => both.expect(Call::Sound, number)?.number,
        None => both.take(Call::Sound)?.number,
    };
    let (start, others) = KINDS.split_first().expect("Start is a kind");
    let (before, after) = others.split_at(random.below(others.len() as u64) as usize);
    for kind in after.iter().chain(before) {
        let right = random.once_in(2);
        let number = both.take(scene.suited(kind, random, right))?.number;
        // A refused call leaves the arrays, so that all are refused by 12.
        if sound == NOT_SOUND && number != NOT_SOUND {
            return Err(both.differs(&format!("{number} on an unsound study")));
        }
    }
    let right = random.once_in(2);
    both.take(scene.suited(start, random, right))?;
    Ok(())
}
