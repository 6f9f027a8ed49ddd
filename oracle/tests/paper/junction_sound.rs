//! "Sound study" on networks of both versions: version, followers, share, and
//! settings where no segment is before.

use crate::lent::Lent;
use crate::networks::{junction, three_segments};
use oracle::file::write;
use oracle::network::Network;
use oracle::study;

/// Where the fields of record `place` (from 0) stand in the words.
fn at(place: usize) -> usize {
    1624 + 16 * place
}

/// A study that has begun on the network.
fn started(network: &Network) -> Lent {
    let n = network.segments.len();
    let mut lent = Lent::free(n);
    let lists: [&[u64]; 3] = [&vec![0; n], &vec![90_000; n], &vec![0; n]];
    assert_eq!(lent.start(network, lists), 0);
    lent
}

/// The number of arrays with some words changed.
fn number(network: &Network, changes: &[(usize, u64)]) -> u8 {
    let mut lent = started(network);
    for &(word, value) in changes {
        lent.words[word] = value;
    }
    study::number(&lent.words, &lent.speeds)
}

#[test]
fn start_stores_followers() {
    let lent = started(&junction());
    assert_eq!(lent.words[7], 2);
    assert_eq!(lent.words[at(2) + 8..at(3)], [4, 5, 333, 0, 0, 0, 0, 0]);
    let chain = started(&three_segments());
    assert_eq!(chain.words[7], 1);
    for (place, first) in [2, 3, 0].into_iter().enumerate() {
        let stored = &chain.words[at(place) + 8..at(place) + 11];
        assert_eq!(*stored, [first, 0, 1_000]);
    }
}

/// Write keeps the version.
#[test]
fn written_in_its_version() {
    let chain_two = Network {
        version: 2,
        ..three_segments()
    };
    for network in [three_segments(), chain_two, junction()] {
        let lent = started(&network);
        let file = write(&network);
        let written = |room| study::write(&lent.words, &lent.speeds, room);
        assert_eq!(written(file.len()), Ok(file.clone()));
        assert_eq!(written(file.len() - 1), Err(24));
    }
}

#[test]
fn version_word() {
    for version in [0, 3, 1 << 32, (1 << 32) + 2, u64::MAX] {
        assert_eq!(number(&junction(), &[(7, version)]), 12);
        assert_eq!(number(&three_segments(), &[(7, version)]), 12);
    }
    // A chain is sound as either version, a junction is no chain.
    assert_eq!(number(&three_segments(), &[(7, 2)]), 0);
    assert_eq!(number(&junction(), &[(7, 1)]), 12);
}

/// In version 1 the words hold the chain and nothing else, also where version 2
/// would be sound.
#[test]
fn version_1_is_the_chain() {
    for (place, field, value) in [(0, 8, 3), (0, 9, 3), (0, 10, 999), (2, 8, 3), (1, 8, 0)] {
        let change = (at(place) + field, value);
        assert_eq!(number(&three_segments(), &[change]), 12);
    }
    let skips = [(at(0) + 8, 3)];
    assert_eq!(number(&three_segments(), &skips), 12);
    assert_eq!(number(&three_segments(), &[skips[0], (7, 2)]), 0);
}

/// Rows 7, 27 and 28 on stored words, which may be any number.
#[test]
fn followers_and_share() {
    let with =
        |place: usize, field: usize, value: u64| number(&junction(), &[(at(place) + field, value)]);
    assert_eq!(with(2, 10, 0), 0);
    assert_eq!(with(2, 10, 1_000), 0);
    assert_eq!(with(2, 10, 1_001), 12);
    assert_eq!(with(2, 10, 333 + (1 << 16)), 12);
    assert_eq!(with(0, 10, 999), 12);
    assert_eq!(with(3, 6, 1), 12);
    for follower in [1, 3, 5, 6, 4 + (1 << 8), u64::MAX] {
        assert_eq!(with(2, 8, follower), 12);
    }
    for follower in [2, 3, 4, 6, 5 + (1 << 32)] {
        assert_eq!(with(2, 9, follower), 12);
    }
    assert_eq!(with(2, 8, 0), 12);
    // Without its second, whose share it had, segment 5 is entered by none.
    assert_eq!(
        number(&junction(), &[(at(2) + 9, 0), (at(2) + 10, 1_000)]),
        12
    );
    // Segment 2 enters segment 4 in place of 3.
    assert_eq!(with(1, 8, 4), 0);
    assert_eq!(number(&junction(), &[(at(1) + 5, 0), (at(1) + 7, 0)]), 12);
}

/// A setting other than open stands only where a segment is before.
#[test]
fn settings_at_mainstream_origins() {
    for (place, expected) in [(0, 12), (1, 12), (2, 0)] {
        let code = 2576 + 16 * place + 4;
        assert_eq!(number(&junction(), &[(code, 1)]), expected);
    }
    // Once segment 1 enters segment 2 as well, it has a ramp.
    let entered = [(at(0) + 9, 3), (at(0) + 8, 2), (2576 + 16 + 4, 1)];
    assert_eq!(number(&junction(), &entered), 0);
}
