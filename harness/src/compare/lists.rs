//! Lists of calls on one study: every answer is the book's, and at the end
//! every figure is.

mod end;
mod lent;

use super::followed::Followed;
use super::Difference;
use crate::calls::{good_start, Call, Scene};
use crate::networks::{calm_road, road};
use crate::random::Random;
use crate::study::{speeds_for, words_for};
use oracle::book::{Book, SLOTS};
use oracle::file::Network;

/// Calls of a list.
const CALLS: u64 = 60;
/// Turns after which a list that has not begun begins with a right Start.
const LATEST_START: u64 = 4;
/// Largest networks of a list, in turn; 0 stands for any.
const SEGMENTS: [u64; 6] = [2, 12, 40, 1, 5, 0];

/// A list in turn, with what the book makes of it.
struct List {
    /// The second fits the arrays in any case; the first may be one word or
    /// one speed too large for them, and the third far too large.
    networks: Vec<Network>,
    followed: Followed,
}

pub fn one(random: &mut Random, index: u64) -> Result<(), Difference> {
    let mut list = List::new(random, index);
    for turn in 0..CALLS {
        let call = list.next(random, turn);
        list.followed.take(call)?;
    }
    list.end(random, index.is_multiple_of(4))
}

impl List {
    fn new(random: &mut Random, index: u64) -> List {
        let largest = match SEGMENTS[(index % 6) as usize] {
            0 => random.between(1, 40),
            segments => segments,
        };
        let smaller = random.between(1, (largest - 1).max(1));
        let too_large = random.between(largest, 40);
        let sizes = [largest, smaller, too_large];
        let networks = sizes.map(|size| match random.once_in(2) {
            true => road(random, size),
            false => calm_road(random, size),
        });
        let arrays = lent::arrays(random, largest as usize, index / 6);
        List {
            networks: networks.into(),
            followed: Followed::new(arrays),
        }
    }

    /// Before the study has begun the arrays hold garbage.
    fn next(&self, random: &mut Random, turn: u64) -> Call {
        let started = self.followed.book().is_some();
        if !started && (turn >= LATEST_START || random.once_in(2)) {
            let first = self.first(random);
            return Call::Start(good_start(random, &self.networks[first]));
        }
        let right = random.below(10) < 7;
        self.scene().any(random, right)
    }

    /// The network of the first right Start: the largest where it fits, most
    /// of the time.
    fn first(&self, random: &mut Random) -> usize {
        let n = self.networks[0].segments.len();
        let (words, speeds) = self.followed.lent();
        let fits = words.len() >= words_for(n) && speeds.len() >= speeds_for(n);
        usize::from(!fits || random.once_in(4))
    }

    fn scene(&self) -> Scene<'_> {
        let book = self.followed.book();
        let filled = |slot| book.is_some_and(|book| book.slot(slot + 1).is_some());
        Scene {
            network: book.map_or(&self.networks[0], Book::network),
            filled: std::array::from_fn::<_, SLOTS, _>(filled),
            brought: &self.networks,
        }
    }
}
