//! The network written as a file.

use super::{record_bytes, CURVE_BYTES, FOLLOWER_BYTES, HEAD_BYTES, MARK_BYTES, RECORD_BYTES};
use crate::network::{Followers, Network, Segment};
use crate::ranges::JUNCTIONS;

/// The file that holds the network, in its version: head, curves, records.
pub fn write(network: &Network) -> Vec<u8> {
    let curves = network.curves.len();
    let segments = network.segments.len();
    let version = u64::from(network.version);
    let length = HEAD_BYTES + CURVE_BYTES * curves + record_bytes(version) * segments;
    let mut file = Vec::with_capacity(length);
    file.extend(MARK_BYTES);
    file.extend(network.version.to_be_bytes());
    file.extend([network.step, segments as u8, curves as u8]);
    file.extend([network.relaxation, network.anticipation, network.kappa, 0]);
    file.extend(network.merging.to_be_bytes());
    file.extend([0, 0]);
    for entry in network.curves.iter().flatten() {
        file.extend(entry.to_be_bytes());
    }
    for segment in &network.segments {
        file.extend(record(segment));
        if version == JUNCTIONS {
            file.extend(followers(segment.followers));
        }
    }
    file
}

/// The 16 bytes of one segment that both versions have.
fn record(segment: &Segment) -> [u8; RECORD_BYTES] {
    let [length0, length1] = segment.length.to_be_bytes();
    let [share0, share1] = segment.exit_share.to_be_bytes();
    let [most0, most1, most2, most3] = segment.most_released.to_be_bytes();
    [
        length0,
        length1,
        segment.lanes,
        segment.curve,
        segment.critical,
        segment.jam,
        u8::from(segment.origin),
        0,
        share0,
        share1,
        most0,
        most1,
        most2,
        most3,
        0,
        0,
    ]
}

/// The 4 bytes of one segment that version 2 adds.
fn followers(followers: Followers) -> [u8; FOLLOWER_BYTES] {
    let [share0, share1] = followers.share.to_be_bytes();
    [followers.first, followers.second, share0, share1]
}
