//! "Sound study": what makes arrays 12, and what is not looked at.

use crate::lent::Lent;
use crate::study::{ask, meter, sign, step, ALINEA, ROOM};
use oracle::book::{Call, Question};
use oracle::case::Setting;
use oracle::study::{self, ARRANGEMENT};

/// Words of a case of three segments.
const CASE_WORDS: usize = 16 * 3 + 8;
/// The filled slot of `lent`, and an empty one.
const FILLED: usize = 5;
const EMPTY: usize = 2;

/// A sign and ALINEA at segment 2, held in one slot.
fn lent() -> Lent {
    let mut lent = Lent::started();
    assert_eq!(lent.number(&sign(2, 70, -100)), 0);
    assert_eq!(lent.number(&meter(2, Setting::Alinea(ALINEA))), 0);
    let slot = FILLED as u64;
    assert_eq!(lent.number(&Call::Hold { slot }), 0);
    lent
}

/// The number of arrays with one word changed.
fn with_word(word: usize, value: u64) -> u8 {
    let mut lent = lent();
    lent.words[word] = value;
    study::number(&lent.words, &lent.speeds)
}

fn with_speed(at: usize, speed: f64) -> u8 {
    let mut lent = lent();
    lent.speeds[at] = speed;
    study::number(&lent.words, &lent.speeds)
}

#[test]
fn run_count_and_marks() {
    assert_eq!(with_word(2560, 1_000_000), 0);
    assert_eq!(with_word(2560, 1_000_001), 12);
    for slot in 1..=6 {
        assert_eq!(with_word(2560 + slot, 2), 12);
        assert_eq!(with_word(2560 + slot, 1 << 32), 12);
        // The slot's words hold no case where none was held.
        let expected = if slot == FILLED { 0 } else { 12 };
        assert_eq!(with_word(2560 + slot, 1), expected);
        assert_eq!(with_word(2560 + slot, 0), 0);
    }
    for free in 2567..2575 {
        assert_eq!(with_word(free, u64::MAX), 0);
    }
}

/// Arrays of another arrangement are not a study of this one.
#[test]
fn arrangement_number() {
    assert_eq!(lent().words[2575], ARRANGEMENT);
    let (before, next) = (ARRANGEMENT - 1, ARRANGEMENT + 1);
    for number in [0, before, next, ARRANGEMENT + (1 << 32), u64::MAX] {
        assert_eq!(with_word(2575, number), 12);
    }
}

/// The live and the filled case are looked at, an empty slot is not.
#[test]
fn cases_that_are_looked_at() {
    for (case, expected) in [(0, 12), (FILLED, 12), (EMPTY, 0)] {
        let at = 2576 + CASE_WORDS * case;
        let state = at + 16;
        assert_eq!(with_word(state, 1_000_000_000_001), expected);
        assert_eq!(with_word(state + 2, 19), expected);
        assert_eq!(with_word(state + 3, 1_001), expected);
        assert_eq!(with_word(state + 4, 3), expected);
        assert_eq!(with_word(state + 5, 399), expected);
        assert_eq!(with_word(state + 12, 60_000_000_000_001), expected);
        assert_eq!(with_word(state + 13, 61), expected);
        assert_eq!(with_word(state + 14, u64::MAX), expected);
        assert_eq!(with_word(state + 15, u64::MAX), 0);
        assert_eq!(with_word(at + 48, 20_001), expected);
        assert_eq!(with_word(at + 51, 1_000_000_000_000_000_001), expected);
        assert_eq!(with_word(at + 52, u64::MAX), 0);
        for speed in [f64::NAN, f64::INFINITY, -0.0, 999.0, 102_001.0] {
            assert_eq!(with_speed(3 * case + 1, speed), expected);
        }
    }
}

#[test]
fn stored_network() {
    assert_eq!(with_word(0, 0), 12);
    assert_eq!(with_word(1, 4), 12);
    assert_eq!(with_word(1, 41), 12);
    assert_eq!(with_word(16 + 200, 102_000), 12);
    assert_eq!(with_word(1624, 99), 12);
    for free in [8, 15, 1624 + 11, 1624 + 15, 2264] {
        assert_eq!(with_word(free, u64::MAX), 0);
    }
}

/// Every call but Start is 12 on arrays that are too short by one.
#[test]
fn lengths() {
    let sound = lent();
    let number =
        |words: usize, speeds: usize| study::number(&sound.words[..words], &sound.speeds[..speeds]);
    assert_eq!(number(ROOM.words, ROOM.speeds), 0);
    assert_eq!(number(ROOM.words - 1, ROOM.speeds), 12);
    assert_eq!(number(ROOM.words, ROOM.speeds - 1), 12);
    for words in [0, 1, 2559, 2560, 2576] {
        assert_eq!(number(words, ROOM.speeds), 12);
    }
    assert_eq!(number(ROOM.words, 0), 12);
}

/// 12 comes first, whatever the arguments are.
#[test]
fn twelve_before_all_others() {
    let mut lent = lent();
    lent.words[2560] = u64::MAX;
    let before = lent.bits();
    let calls = [
        sign(0, 1, 501),
        meter(0, Setting::Open),
        step(&[]),
        Call::Hold { slot: 0 },
        Call::Recall { slot: 0 },
        Call::Drop { slot: 0 },
        ask(7, &Question::Case),
        ask(7, &Question::Segment(0)),
        Call::RunCount,
    ];
    for call in calls {
        assert_eq!(lent.number(&call), 12);
    }
    assert_eq!(lent.bits(), before);
}

/// 16 by the run count alone.
#[test]
fn sixteen_by_the_run_count() {
    let mut lent = lent();
    lent.words[2560] = 999_999;
    assert_eq!(lent.number(&step(&[0; 3])), 0);
    assert_eq!(lent.words[2560], 1_000_000);
    assert_eq!(lent.number(&step(&[0; 3])), 16);
    assert_eq!(lent.number(&step(&[0, 0, 1])), 15);
}
