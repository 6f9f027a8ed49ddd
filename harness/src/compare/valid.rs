//! Valid files are accepted.

use super::{expect_number, Difference};
use crate::bounds::MARKED;
use crate::draft::Draft;
use crate::networks::{network, ANY};
use crate::random::Random;

pub fn one(random: &mut Random, index: u64) -> Result<(), Difference> {
    let mut draft = Draft::new(network(random, ANY));
    if index == 0 {
        // Marked: F × T is 3600 × L exactly.
        draft.rebound(0, MARKED);
        return expect_number(&draft.bytes, 0, "F 100,000 at L 500, T 18");
    }
    expect_number(&draft.bytes, 0, "a valid file")
}
