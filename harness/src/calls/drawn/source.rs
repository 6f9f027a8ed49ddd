//! Where the arguments of a call come from: all of them suit a study, all but
//! one or some do, or they are any numbers.

use crate::damages::outside;
use crate::random::Random;
use oracle::case::{Alinea, Setting};

pub enum Source<'a> {
    /// Arguments that suit, but for those that are wrong.
    Suited {
        random: &'a mut Random,
        wrong: Wrong,
    },
    /// The next of any numbers.
    Any(&'a mut dyn FnMut() -> u64),
}

impl Source<'_> {
    /// The next argument: drawn in one way where it is right, in the other
    /// where it is wrong.
    pub fn draw(
        &mut self,
        right: impl FnOnce(&mut Random) -> u64,
        wrongly: impl FnOnce(&mut Random) -> u64,
    ) -> u64 {
        match self {
            Source::Any(next) => next(),
            Source::Suited { random, wrong } => match wrong.next() {
                false => right(random),
                true => wrongly(random),
            },
        }
    }

    /// A number in `low..=high`, its ends often.
    pub fn within(&mut self, low: u64, high: u64) -> u64 {
        self.draw(
            |random| random.edge(low, high),
            |random| out_of(random, low, high),
        )
    }

    /// Room for an answer: as much as is needed or more; else one too few, or
    /// fewer. Any number is brought down to what can be lent.
    pub fn room(&mut self, needed: usize) -> usize {
        let needed = needed as u64;
        let room = self.draw(
            |random| match random.once_in(2) {
                true => needed,
                false => needed + random.edge(1, 20),
            },
            |random| match random.once_in(2) {
                true => needed - 1,
                false => random.below(needed),
            },
        );
        (room % (2 * needed + 24)) as usize
    }

    /// The limit of a sign in km/h, 0 for dark.
    pub fn limit(&mut self) -> u64 {
        self.draw(
            |random| match random.once_in(3) {
                true => 0,
                false => random.edge(20, 200),
            },
            |random| out_of(random, 20, 200).max(1),
        )
    }

    /// A compliance in thousandths.
    pub fn compliance(&mut self) -> i64 {
        self.draw(
            |random| random.edge(0, 1000).wrapping_sub(500),
            |random| far_compliance(random) as u64,
        ) as i64
    }

    /// A fixed rate at a ramp that releases at most `most` mv per step.
    pub fn fixed(&mut self, most: u64) -> Setting {
        Setting::Fixed(self.within(0, most))
    }

    /// ALINEA at such a ramp.
    pub fn alinea(&mut self, most: u64) -> Setting {
        Setting::Alinea(Alinea {
            target: self.within(1, 199),
            gain: self.within(1, 60_000),
            least: self.within(0, most),
            interval: self.within(1, 60),
        })
    }
}

/// Which arguments of a call are wrong, a bit each.
#[derive(Clone, Copy)]
pub struct Wrong(u64);

impl Wrong {
    /// None of so many where the call is right; else one, or some.
    pub fn of(random: &mut Random, arguments: u64, right: bool) -> Wrong {
        Wrong(match (right || arguments == 0, random.once_in(4)) {
            (true, _) => 0,
            (false, true) => random.between(1, (1 << arguments) - 1),
            (false, false) => 1 << random.below(arguments),
        })
    }

    /// Whether the next of them is wrong.
    pub fn next(&mut self) -> bool {
        let wrong = self.0 & 1 == 1;
        self.0 >>= 1;
        wrong
    }
}

/// Any 32-bit numbers: n of them, one fewer or more, or any amount.
pub fn any_list(next: &mut dyn FnMut() -> u64, n: usize) -> Vec<u32> {
    let length = match next() % 16 {
        0 => n - 1,
        1 => n + 1,
        2 => next() as usize % 64,
        _ => n,
    };
    (0..length).map(|_| next() as u32).collect()
}

/// A number outside `low..=high`: beside an end, far off, or right in its
/// lowest bits alone.
pub fn out_of(random: &mut Random, low: u64, high: u64) -> u64 {
    outside(random.between(low, high), low, high, random)
}

/// A compliance outside −500..500, on either side.
fn far_compliance(random: &mut Random) -> i64 {
    let far = out_of(random, 0, 500) & i64::MAX as u64;
    let far = far.max(501) as i64;
    match random.below(5) {
        0 | 1 => far,
        2 | 3 => -far,
        _ => i64::MIN,
    }
}
