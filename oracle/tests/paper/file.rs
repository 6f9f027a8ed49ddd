//! The network file against the paper.

use crate::networks;
use oracle::file::{check, curve, curve_number, parse, write};

#[test]
fn a_written_file_is_read_back() {
    for network in [networks::tallies(), networks::three_segments()] {
        let file = write(&network);
        assert_eq!(check(&file), 0);
        assert_eq!(parse(&file), Ok(network));
    }
}

/// Marked: L 500, T 18, F 100,000 accepted, 100,001 is 8.
#[test]
fn free_speed_at_the_bound() {
    let mut network = networks::tallies();
    network.step = 18;
    assert_eq!(check(&write(&network)), 0);
    network.curves[0][0] = 100_001;
    assert_eq!(check(&write(&network)), 8);
}

#[test]
fn rows_one_to_five() {
    let file = write(&networks::tallies());
    assert_eq!(check(&[]), 1);
    assert_eq!(check(&file[..15]), 1);
    assert_eq!(check(&file[..16]), 5);
    let changed = |at: usize, byte| {
        let mut file = file.clone();
        file[at] = byte;
        check(&file)
    };
    assert_eq!(changed(2, b'M'), 2);
    assert_eq!(changed(3, 1), 3);
    assert_eq!(changed(11, 1), 4);
    assert_eq!(changed(6, 2), 5);
}

/// An 8 in record 1 comes before a 7 in record 2.
#[test]
fn records_are_judged_one_by_one() {
    let mut network = networks::three_segments();
    network.segments[1].lanes = 9;
    assert_eq!(check(&write(&network)), 7);
    network.segments[0].length = 200;
    assert_eq!(check(&write(&network)), 8);
    network.segments[0].lanes = 0;
    assert_eq!(check(&write(&network)), 7);
}

#[test]
fn curve_of_a_file() {
    let mut network = networks::tallies();
    network.curves.push([2_000; 201]);
    let file = write(&network);
    assert_eq!(curve(&file, 1), Some((16 + 804, 804)));
    assert_eq!(curve_number(&file, 2), 10);
    assert_eq!(curve_number(&file, u64::MAX), 10);
    assert_eq!(curve(&file, 2), None);
    assert_eq!(curve_number(&file[1..], 2), 2);
}
