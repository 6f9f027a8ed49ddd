//! S and m in lent arrays: what Meter, Hold and Recall do with them, and their
//! bounds.

use crate::laid::LIVE;
use crate::lent::Lent;
use crate::study::{meter, step, ALINEA, COUNTS};
use oracle::book::Call;
use oracle::case::Setting;
use oracle::study;
use oracle::survey::write;

/// Words of a case of three segments.
const CASE_WORDS: usize = 16 * 3 + 8;
/// S and m of segment 2, which has the ramp; steps on the line.
const SUM: usize = 16 + 12;
const STEPS: usize = 16 + 13;
const T: usize = 48;
/// The greatest S and m.
const MOST_SUM: u64 = 60_000_000_000_000;
const MOST_STEPS: u64 = 60;

/// A study with such a meter at segment 2; ALINEA has z 2.
fn metered(setting: Setting) -> Lent {
    let mut lent = Lent::started();
    assert_eq!(lent.number(&meter(2, setting)), 0);
    lent
}

/// S and m of segment 2 of a case, 0 being the live one.
fn collected(lent: &Lent, case: usize) -> [u64; 2] {
    let at = LIVE + CASE_WORDS * case;
    [lent.words[at + SUM], lent.words[at + STEPS]]
}

/// Meter sets both to 0 over ALINEA, and leaves them so over the others; the
/// free words of the state stay.
#[test]
fn meter_word_by_word() {
    let settings = [Setting::Open, Setting::Fixed(700), Setting::Alinea(ALINEA)];
    for before in settings {
        for setting in settings {
            let mut lent = metered(before);
            assert_eq!(lent.number(&step(&[0; 3])), 0);
            let grown = match before {
                Setting::Alinea(_) => [COUNTS[1], 1],
                _ => [0, 0],
            };
            assert_eq!(collected(&lent, 0), grown);
            lent.words[LIVE + 16 + 14..LIVE + 32].fill(77);
            let (mut words, bits) = lent.bits();
            assert_eq!(lent.number(&meter(2, setting)), 0);
            words[LIVE + 16 + 4..][..6].copy_from_slice(&match setting {
                Setting::Open => [0, 5_500, 0, 0, 0, 0],
                Setting::Fixed(_) => [1, 700, 0, 0, 0, 0],
                Setting::Alinea(_) => [2, 5_500, 40, 700, 400, 2],
            });
            words[LIVE + SUM..][..2].fill(0);
            assert_eq!(lent.bits(), (words, bits));
        }
    }
}

/// A held case keeps its own, and goes on with them after Recall.
#[test]
fn hold_and_recall_carry_both() {
    let mut lent = metered(Setting::Alinea(ALINEA));
    let row = [9_000, 2_500, 0];
    assert_eq!(lent.step(&row), 0);
    assert_eq!(lent.number(&Call::Hold { slot: 3 }), 0);
    let held = [COUNTS[1], 1];
    let mut states = Vec::new();
    for _ in 0..2 {
        assert_eq!((collected(&lent, 0), collected(&lent, 3)), (held, held));
        for _ in 0..4 {
            assert_eq!(lent.step(&row), 0);
            assert_ne!(collected(&lent, 0), held);
            assert_eq!(collected(&lent, 3), held);
        }
        states.push(lent.words[LIVE..][..CASE_WORDS].to_vec());
        assert_eq!(lent.number(&Call::Recall { slot: 3 }), 0);
    }
    assert_eq!(states[0], states[1]);
}

/// Any S and m within the bounds is sound at an ALINEA ramp, whatever the other
/// is; only 0 is at an open and at a fixed one.
#[test]
fn bounds() {
    let number = |setting, sum, steps| {
        let mut lent = metered(setting);
        [lent.words[LIVE + SUM], lent.words[LIVE + STEPS]] = [sum, steps];
        study::number(&lent.words, &lent.speeds)
    };
    let alinea = Setting::Alinea(ALINEA);
    for (sum, steps) in [(0, MOST_STEPS), (MOST_SUM, 0), (MOST_SUM, MOST_STEPS)] {
        assert_eq!(number(alinea, sum, steps), 0);
    }
    for sum in [MOST_SUM + 1, 1 << 63, u64::MAX] {
        assert_eq!(number(alinea, sum, 1), 12);
    }
    for steps in [MOST_STEPS + 1, 1 << 32, u64::MAX] {
        assert_eq!(number(alinea, 1, steps), 12);
    }
    for setting in [Setting::Open, Setting::Fixed(700), Setting::Fixed(0)] {
        assert_eq!(number(setting, 0, 0), 0);
        for wrong in [1, 60, 1 << 32, u64::MAX] {
            assert_eq!(number(setting, wrong, 0), 12);
            assert_eq!(number(setting, 0, wrong), 12);
        }
    }
}

/// Studies written by hand, three rows of each: t, S and m, and how the run
/// ends. Where it is not ALINEA's turn, or m is 0, the first row may pass a
/// bound; the second then meets 12. Single steps do the same.
#[test]
fn a_row_meets_twelve() {
    let room = MOST_SUM - COUNTS[1];
    let ends = [
        ([1, 0, MOST_STEPS], [1, 12]),
        ([1, 0, MOST_STEPS - 1], [3, 0]),
        ([2, 0, MOST_STEPS], [3, 0]),
        ([1, room + 1, 7], [1, 12]),
        ([1, room, 7], [3, 0]),
        ([2, MOST_SUM, 7], [3, 0]),
        ([2, room + 1, 0], [1, 12]),
        ([2, 0, 0], [3, 0]),
    ];
    let row = [1, 0, 0];
    let file = write(3, &row.repeat(3), usize::MAX).expect("three rows");
    for ([t, sum, steps], [taken, number]) in ends {
        let mut lent = metered(Setting::Alinea(ALINEA));
        lent.words[LIVE + T] = t;
        [lent.words[LIVE + SUM], lent.words[LIVE + STEPS]] = [sum, steps];
        let mut single = lent.clone();
        let figures = lent.call(&Call::Run { file: &file });
        assert_eq!(figures, Ok(vec![taken, number]), "{t}, {sum}, {steps}");
        for _ in 0..taken {
            assert_eq!(single.step(&row), 0);
        }
        assert_eq!(
            u64::from(study::number(&single.words, &single.speeds)),
            number
        );
        if number != 0 {
            assert_eq!(u64::from(single.step(&row)), number);
        }
        assert_eq!(lent.bits(), single.bits());
    }
}
