//! Every number that refuses a call on a study, and the order of the rows.

use crate::networks;
use crate::study::{ask, book, meter, number, sign, start, step};
use crate::study::{ALINEA, COUNTS, QUEUES, ROOM, SPEEDS};
use oracle::book::{Call, Lengths, Question};
use oracle::case::{Alinea, Setting};

fn start_number(room: Lengths, lists: [&[u64]; 3]) -> u8 {
    let network = networks::three_segments();
    start(&network, room, lists).err().unwrap_or(0)
}

#[test]
fn file_rows_come_first_at_start() {
    let mut network = networks::three_segments();
    network.kappa = 0;
    let none = Lengths {
        words: 0,
        speeds: 0,
    };
    let refused = start(&network, none, [&[], &[], &[]]).err();
    assert_eq!(refused, Some(4));
}

#[test]
fn eleven_arrays_too_short() {
    let lists: [&[u64]; 3] = [&COUNTS, &SPEEDS, &QUEUES];
    let words = ROOM.words - 1;
    assert_eq!(start_number(Lengths { words, ..ROOM }, lists), 11);
    let speeds = ROOM.speeds - 1;
    assert_eq!(start_number(Lengths { speeds, ..ROOM }, lists), 11);
    assert_eq!(
        start_number(Lengths { speeds, ..ROOM }, [&[], &[], &[]]),
        11
    );
    assert_eq!(start_number(ROOM, lists), 0);
}

#[test]
fn thirteen_list_length() {
    let bad = [9_999_999; 3];
    assert_eq!(start_number(ROOM, [&bad[..2], &SPEEDS, &QUEUES]), 13);
    assert_eq!(start_number(ROOM, [&bad, &[1; 4], &QUEUES]), 13);
    assert_eq!(start_number(ROOM, [&bad, &SPEEDS, &[]]), 13);
    let arrivals = [u32::MAX; 4];
    let mut book = book();
    let short = &arrivals[..2];
    assert_eq!(number(&mut book, step(short)), 13);
    let long = &arrivals[..];
    assert_eq!(number(&mut book, step(long)), 13);
}

#[test]
fn fourteen_start_figures() {
    let full = [180 * 1_503, 180 * 1_406, 180 * 1_998];
    assert_eq!(start_number(ROOM, [&full, &SPEEDS, &QUEUES]), 0);
    for place in 0..3 {
        let mut counts = full;
        counts[place] += 1;
        assert_eq!(start_number(ROOM, [&counts, &SPEEDS, &QUEUES]), 14);
        for (speed, expected) in [(999, 14), (1_000, 0), (102_000, 0), (102_001, 14)] {
            let mut speeds = SPEEDS;
            speeds[place] = speed;
            assert_eq!(start_number(ROOM, [&full, &speeds, &QUEUES]), expected);
        }
    }
    let queues = [1_000_000, 1_000_000, 0];
    assert_eq!(start_number(ROOM, [&full, &SPEEDS, &queues]), 0);
    assert_eq!(start_number(ROOM, [&full, &SPEEDS, &[0, 1_000_001, 0]]), 14);
    assert_eq!(start_number(ROOM, [&full, &SPEEDS, &[0, 0, 1]]), 14);
}

#[test]
fn fifteen_arrivals() {
    let mut book = book();
    let mut with = |arrivals: [u32; 3]| number(&mut book, step(&arrivals));
    assert_eq!(with([1_000_000, 1_000_000, 0]), 0);
    assert_eq!(with([1_000_001, 0, 0]), 15);
    assert_eq!(with([0, 1_000_001, 0]), 15);
    assert_eq!(with([0, 0, 1]), 15);
}

/// 20,000 steps on a line; a line recalled goes on, until 1,000,000 in all.
#[test]
fn sixteen_no_more_steps() {
    let network = networks::tallies();
    let mut book = start(&network, ROOM, [&[0], &[1_000], &[0]]).expect("a good start");
    let idle = step(&[0]);
    assert_eq!(number(&mut book, Call::Hold { slot: 1 }), 0);
    for round in 1..=50 {
        for _ in 0..20_000 {
            assert_eq!(number(&mut book, idle), 0);
        }
        assert_eq!(number(&mut book, idle), 16);
        assert_eq!(book.runs(), 20_000 * round);
        assert_eq!(number(&mut book, Call::Recall { slot: 1 }), 0);
    }
    assert_eq!(book.live().case().steps, 0);
    assert_eq!(number(&mut book, idle), 16);
    assert_eq!(number(&mut book, step(&[1_000_001])), 15);
}

#[test]
fn seventeen_segment_outside() {
    let mut book = book();
    for segment in [0, 4, u64::MAX] {
        assert_eq!(number(&mut book, sign(segment, 1, 501)), 17);
        assert_eq!(number(&mut book, meter(segment, Setting::Open)), 17);
        let question = Question::Segment(segment);
        let report = |case| ask(case, &question);
        assert_eq!(number(&mut book, report(0)), 17);
        assert_eq!(number(&mut book, report(7)), 21);
        assert_eq!(number(&mut book, report(6)), 23);
    }
}

#[test]
fn eighteen_signs() {
    let mut book = book();
    for limit in [0, 20, 200] {
        for compliance in [-500, 500] {
            assert_eq!(number(&mut book, sign(3, limit, compliance)), 0);
        }
        for compliance in [-501, 501, i64::MIN, i64::MAX] {
            assert_eq!(number(&mut book, sign(3, limit, compliance)), 18);
        }
    }
    for limit in [1, 19, 201, u64::MAX] {
        assert_eq!(number(&mut book, sign(3, limit, 0)), 18);
    }
}

#[test]
fn nineteen_no_ramp() {
    let mut book = book();
    for segment in [1, 3] {
        assert_eq!(number(&mut book, meter(segment, Setting::Open)), 19);
        let fixed = Setting::Fixed(u64::MAX);
        assert_eq!(number(&mut book, meter(segment, fixed)), 19);
    }
}

#[test]
fn twenty_settings() {
    let mut book = book();
    let mut with = |setting| number(&mut book, meter(2, setting));
    assert_eq!(with(Setting::Fixed(0)), 0);
    assert_eq!(with(Setting::Fixed(5_500)), 0);
    assert_eq!(with(Setting::Fixed(5_501)), 20);
    let change = |alinea: fn(&mut Alinea, u64), figure: u64| {
        let mut changed = ALINEA;
        alinea(&mut changed, figure);
        Setting::Alinea(changed)
    };
    for (figure, expected) in [(0, 20), (1, 0), (199, 0), (200, 20)] {
        let setting = change(|alinea, target| alinea.target = target, figure);
        assert_eq!(with(setting), expected);
    }
    for (figure, expected) in [(0, 20), (1, 0), (60_000, 0), (60_001, 20)] {
        let setting = change(|alinea, gain| alinea.gain = gain, figure);
        assert_eq!(with(setting), expected);
    }
    for (figure, expected) in [(0, 0), (5_500, 0), (5_501, 20)] {
        let setting = change(|alinea, least| alinea.least = least, figure);
        assert_eq!(with(setting), expected);
    }
    for (figure, expected) in [(0, 20), (1, 0), (60, 0), (61, 20)] {
        let setting = change(|alinea, interval| alinea.interval = interval, figure);
        assert_eq!(with(setting), expected);
    }
}

#[test]
fn twenty_one_no_such_slot() {
    let mut book = book();
    for slot in [0, 7, u64::MAX] {
        assert_eq!(number(&mut book, Call::Hold { slot }), 21);
        assert_eq!(number(&mut book, Call::Recall { slot }), 21);
        assert_eq!(number(&mut book, Call::Drop { slot }), 21);
    }
    assert_eq!(number(&mut book, ask(7, &Question::Case)), 21);
    assert_eq!(number(&mut book, ask(0, &Question::Case)), 0);
}

#[test]
fn twenty_two_and_twenty_three() {
    let mut book = book();
    for slot in 1..=6 {
        assert_eq!(number(&mut book, Call::Recall { slot }), 23);
        assert_eq!(number(&mut book, Call::Drop { slot }), 23);
        assert_eq!(number(&mut book, ask(slot, &Question::Case)), 23);
        assert_eq!(number(&mut book, Call::Hold { slot }), 0);
        assert_eq!(number(&mut book, Call::Hold { slot }), 22);
        assert_eq!(number(&mut book, Call::Drop { slot }), 0);
        assert_eq!(number(&mut book, Call::Hold { slot }), 0);
    }
}
