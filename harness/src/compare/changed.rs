//! One byte of a valid file changed: in the head, a curve or a record.

use super::{expect_agreement, Difference};
use crate::draft::{Draft, HEAD};
use crate::networks::{network, ANY};
use crate::random::Random;

pub fn one(random: &mut Random, index: u64) -> Result<(), Difference> {
    let mut draft = Draft::new(network(random, ANY));
    let length = draft.bytes.len();
    let records_at = draft.record_at(0);
    let (low, high) = match index % 3 {
        0 => (0, HEAD),
        1 => (HEAD, records_at),
        _ => (records_at, length),
    };
    let at = random.between(low as u64, high as u64 - 1) as usize;
    if random.once_in(2) {
        draft.bytes[at] ^= 1 << random.below(8);
    } else {
        draft.spoil(at, random);
    }
    expect_agreement(&draft.bytes, &format!("byte {at} of {length} changed"))
}
