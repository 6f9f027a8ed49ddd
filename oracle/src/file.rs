//! The network file: refusing, reading and writing it.

mod place;
mod read;
mod write;

use crate::network::ENTRIES;
use crate::ranges::JUNCTIONS;
use crate::refusal::NO_CURVE;
use read::judge;

pub use crate::network::{Curve, Followers, Network, Segment};
pub use place::{place, Place};
pub use write::write;

/// The mark that begins every file.
const MARK_BYTES: &[u8; 3] = b"FWN";
const HEAD_BYTES: usize = 16;
const CURVE_BYTES: usize = 4 * ENTRIES;
/// Bytes of a record of version 1; one of version 2 begins with them.
const RECORD_BYTES: usize = 16;
/// Bytes for followers and share, in version 2.
const FOLLOWER_BYTES: usize = 4;

/// Bytes of a record of that version.
fn record_bytes(version: u64) -> usize {
    match version {
        JUNCTIONS => RECORD_BYTES + FOLLOWER_BYTES,
        _ => RECORD_BYTES,
    }
}

/// 0 if the file is accepted, else the first row of the table that applies.
pub fn check(file: &[u8]) -> u8 {
    judge(file).err().unwrap_or(0)
}

/// The same for a file and a curve number: the file's rows, then 10.
pub fn curve_number(file: &[u8], curve: u64) -> u8 {
    match judge(file) {
        Err(number) => number,
        Ok(parts) if curve < parts.head.curves => 0,
        Ok(_) => NO_CURVE,
    }
}

/// Offset and length in the file of the chosen curve's bytes, or nothing
/// where `curve_number` refuses.
pub fn curve(file: &[u8], curve: u64) -> Option<(usize, usize)> {
    if curve_number(file, curve) != 0 {
        return None;
    }
    Some((HEAD_BYTES + CURVE_BYTES * curve as usize, CURVE_BYTES))
}

/// The network that the file holds, or the number that refuses it.
pub fn parse(file: &[u8]) -> Result<Network, u8> {
    judge(file).map(|parts| parts.network())
}
