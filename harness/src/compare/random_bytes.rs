//! Random bytes: all of them, or after a right mark, head or curves.

use super::{expect_agreement, Difference};
use crate::draft::{Draft, CURVE, HEAD};
use crate::networks::{network, ANY};
use crate::random::Random;

/// Bytes of the mark and the version.
const MARK_AND_VERSION: usize = 5;

pub fn one(random: &mut Random, index: u64) -> Result<(), Difference> {
    if index.is_multiple_of(4) {
        let length = random.edge(0, 8000) as usize;
        let mut file = vec![0; length];
        random.fill(&mut file);
        return expect_agreement(&file, "random bytes");
    }
    let mut file = Draft::new(network(random, ANY)).bytes;
    let curves = usize::from(file[7]);
    let (kept, what) = match index % 4 {
        1 => (MARK_AND_VERSION, "random bytes after mark and version"),
        2 => (HEAD, "random bytes after a right head"),
        _ => (HEAD + CURVE * curves, "random records after right curves"),
    };
    random.fill(&mut file[kept..]);
    expect_agreement(&file, what)
}
