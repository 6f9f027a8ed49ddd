//! The network file of version 2: its rows, their order and their places.
//!
//! Records of 20 bytes begin at byte 820.

use crate::networks::{followers, junction, three_segments};
use oracle::file::{check, curve, parse, place, write};
use oracle::network::Network;

/// Where a record (from 0) begins.
fn at(record: usize) -> usize {
    16 + 804 + 20 * record
}

/// Number, part, rule and byte of a file.
fn told(file: &[u8]) -> [usize; 4] {
    let place = place(file);
    assert_eq!(place.number, check(file));
    [place.number.into(), place.part, place.rule, place.byte]
}

/// The same of the junction with a change.
fn with(change: impl Fn(&mut Network)) -> [usize; 4] {
    let mut network = junction();
    change(&mut network);
    told(&write(&network))
}

/// The same with followers and share of a record (from 0).
fn followed(record: usize, first: u16, second: u16, share: u16) -> [usize; 4] {
    with(|network| {
        network.segments[record].exit_share = 0;
        network.segments[record].followers = followers([first, second, share]);
    })
}

#[test]
fn both_versions_are_read_back() {
    let chain = three_segments();
    for version in [1, 2] {
        let network = Network {
            version,
            ..chain.clone()
        };
        let file = write(&network);
        assert_eq!(file.len(), 16 + 804 + [16, 20][version as usize - 1] * 3);
        assert_eq!(told(&file), [0; 4]);
        assert_eq!(parse(&file), Ok(network));
    }
    let file = write(&junction());
    assert_eq!(parse(&file), Ok(junction()));
    assert_eq!(file[at(2) + 16..at(3)], [4, 5, 1, 77]);
    assert_eq!(curve(&file, 0), Some((16, 804)));
}

/// tests/junction.fwn is this network's file, to the byte.
#[test]
fn the_file_among_the_tests() {
    let file = include_bytes!("../../../tests/junction.fwn");
    assert_eq!(file[..], write(&junction()));
    assert_eq!(parse(file), Ok(junction()));
}

#[test]
fn three_other_versions() {
    for version in [0, 3, 256, 513, u16::MAX] {
        assert_eq!(with(|network| network.version = version), [3, 0, 0, 3]);
    }
}

/// Row 5 counts the bytes of the file's own version.
#[test]
fn five_lengths() {
    let file = write(&junction());
    let length = file.len();
    assert_eq!(length, at(5));
    assert_eq!(told(&file[..length - 1]), [5, 0, 0, length - 1]);
    assert_eq!(told(&[&file[..], &[0]].concat()), [5, 0, 0, length]);
    let mut other = file.clone();
    other[4] = 1;
    assert_eq!(told(&other), [5, 0, 0, length - 20]);
    let mut chain = write(&three_segments());
    chain[4] = 2;
    assert_eq!(told(&chain), [5, 0, 0, chain.len()]);
}

#[test]
fn seven_shares() {
    assert_eq!(followed(2, 4, 5, 0), [0; 4]);
    assert_eq!(followed(2, 4, 5, 1000), [0; 4]);
    assert_eq!(followed(2, 4, 5, 1001), [7, 2, 15, at(2) + 18]);
    assert_eq!(followed(0, 3, 0, 1001), [7, 0, 15, at(0) + 18]);
    assert_eq!(followed(0, 3, 0, 999), [7, 0, 16, at(0) + 18]);
    assert_eq!(followed(4, 0, 0, 0), [7, 4, 16, at(4) + 18]);
    assert_eq!(followed(4, 0, 0, u16::MAX), [7, 4, 15, at(4) + 18]);
}

/// X must be 0 where no one follows; with a second alone it is 27 that refuses.
#[test]
fn seven_exit_share_at_an_end() {
    for record in [3, 4] {
        let told = with(|network| network.segments[record].exit_share = 1);
        assert_eq!(told, [7, record, 9, at(record) + 8]);
    }
    let second_alone = with(|network| {
        network.segments[2].followers.first = 0;
        network.segments[2].followers.share = 1000;
    });
    assert_eq!(second_alone, [27, 2, 2, at(2) + 17]);
}

/// Segment 1 alone needs its origin by row 7.
#[test]
fn seven_origin_of_segment_1() {
    let closed = |record: usize| {
        with(|network| {
            network.segments[record].origin = false;
            network.segments[record].most_released = 0;
        })
    };
    assert_eq!(closed(0), [7, 0, 7, at(0) + 6]);
    assert_eq!(closed(1), [28, 1, 0, at(1) + 6]);
    assert_eq!(closed(2), [0; 4]);
}

/// Each of the four conditions, at the first follower and at the second.
#[test]
fn twenty_seven_followers() {
    let refused = |rule, byte| [27, 2, rule, at(2) + byte];
    assert_eq!(followed(2, 3, 5, 500), refused(0, 16));
    assert_eq!(followed(2, 1, 0, 1000), refused(0, 16));
    assert_eq!(followed(2, 4, 3, 500), refused(0, 17));
    assert_eq!(followed(2, 4, 1, 500), refused(0, 17));
    assert_eq!(followed(2, 6, 5, 500), refused(1, 16));
    assert_eq!(followed(2, 255, 0, 1000), refused(1, 16));
    assert_eq!(followed(2, 4, 6, 500), refused(1, 17));
    assert_eq!(followed(2, 0, 5, 500), refused(2, 17));
    assert_eq!(followed(2, 5, 5, 500), refused(3, 17));
    assert_eq!(followed(4, 5, 0, 1000), [27, 4, 0, at(4) + 16]);
}

/// Where several hold: the first in the paper's order, and there the first
/// follower.
#[test]
fn twenty_seven_conditions_in_order() {
    let refused = |rule, byte| [27, 2, rule, at(2) + byte];
    assert_eq!(followed(2, 3, 3, 500), refused(0, 16));
    assert_eq!(followed(2, 6, 3, 500), refused(0, 17));
    assert_eq!(followed(2, 0, 2, 500), refused(0, 17));
    assert_eq!(followed(2, 6, 6, 500), refused(1, 16));
    assert_eq!(followed(2, 0, 6, 500), refused(1, 17));
}

/// 7, 27 and 8 in one record, then the next; 28 after the last.
#[test]
fn order_of_the_rows() {
    let mut network = junction();
    network.segments[1].origin = false;
    network.segments[1].most_released = 0;
    let mut number = |change: fn(&mut Network)| {
        change(&mut network);
        check(&write(&network))
    };
    assert_eq!(number(|_| ()), 28);
    assert_eq!(number(|network| network.segments[4].length = 100), 8);
    assert_eq!(
        number(|network| network.segments[4].followers.first = 5),
        27
    );
    assert_eq!(number(|network| network.segments[4].lanes = 0), 7);
    assert_eq!(number(|network| network.segments[3].length = 100), 8);
    assert_eq!(
        number(|network| network.segments[2].followers.second = 4),
        27
    );
    assert_eq!(number(|network| network.segments[1].lanes = 9), 7);
    assert_eq!(number(|network| network.segments[0].length = 100), 8);
}

/// Segment 4 is named by none, or by a share of none.
#[test]
fn twenty_eight_nothing_enters() {
    assert_eq!(followed(2, 5, 0, 1000), [28, 3, 0, at(3) + 6]);
    assert_eq!(followed(2, 0, 0, 1000), [28, 3, 0, at(3) + 6]);
    assert_eq!(followed(2, 4, 0, 1000), [28, 4, 0, at(4) + 6]);
    assert_eq!(followed(2, 5, 4, 1000), [0; 4]);
}
