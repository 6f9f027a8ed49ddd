//! Calls on a study in lent arrays: what they store, beside the book.

use crate::lent::{Lent, FREE, FREE_SPEED};
use crate::lines::{random, with_call};
use crate::networks;
use crate::study::{ask, book, step};
use oracle::book::{Call, Question};
use oracle::file;
use oracle::study::{self, Study, ARRANGEMENT};

/// Random calls: every answer is the book's, a refused call changes nothing,
/// and the arrays hold what the book says.
#[test]
fn arrays_follow_the_book() {
    let (mut book, mut lent) = (book(), Lent::started());
    let mut state = 7_u64;
    for _ in 0..3_000 {
        let before = lent.bits();
        let number = random(&mut state);
        let answer = with_call(number, |call| {
            let answer = lent.call(call);
            assert_eq!(answer, book.call(call), "{call:?}");
            answer
        });
        assert!(answer.is_ok() || lent.bits() == before);
        assert_eq!(
            study::read(&lent.words, &lent.speeds),
            Ok(Study::of_book(&book))
        );
        for case in 0..=7 {
            let report = ask(case, &Question::Case);
            assert_eq!(lent.call(&report), book.call(&report));
        }
    }
    assert!(book.runs() > 1_000);
    assert_eq!(lent.words[2575], ARRANGEMENT);
    lent.assert_past();
}

/// Every word that Start stores, by hand; a slot's words and speeds stay.
#[test]
fn start_word_by_word() {
    let lent = Lent::tallies();
    let mut expected = vec![0; 2576 + 24];
    expected[..8].copy_from_slice(&[10, 1, 1, 20, 0, 40, 0, 1]);
    expected[16..217].fill(100_000);
    expected[1624..1632].copy_from_slice(&[500, 2, 0, 30, 180, 1, 0, 6_000]);
    expected[1632..1635].copy_from_slice(&[0, 0, 1_000]);
    expected[2575] = ARRANGEMENT;
    expected[2576..2582].copy_from_slice(&[20_000, 5_000, 0, 0, 0, 6_000]);
    expected.resize(lent.words.len(), FREE);
    let mut bits = vec![FREE_SPEED; lent.speeds.len()];
    bits[0] = 90_000_f64.to_bits();
    assert_eq!(lent.bits(), (expected, bits));
}

/// The listing through reports.
#[test]
fn the_listing() {
    let mut lent = Lent::tallies();
    for (arrivals, listed) in [
        ([4_000], [1, 16_000, 3_000, 4_000, 10_000, 250_000]),
        ([0], [2, 10_556, 0, 4_000, 18_444, 440_000]),
    ] {
        assert_eq!(lent.number(&step(&arrivals)), 0);
        let report = lent.call(&ask(0, &Question::Case));
        assert_eq!(report, Ok(listed.into()));
    }
    assert_eq!(lent.call(&Call::RunCount), Ok(vec![2]));
}

/// Hold copies every word and speed of the live case and changes one mark,
/// Drop changes the mark alone.
#[test]
fn hold_and_drop_word_by_word() {
    let mut lent = Lent::started();
    let case_words = 16 * 3 + 8;
    lent.words[2576 + 15] = 77;
    let mut expected = lent.bits();
    assert_eq!(lent.number(&Call::Hold { slot: 4 }), 0);
    expected.0[2564] = 1;
    expected
        .0
        .copy_within(2576..2576 + case_words, 2576 + 4 * case_words);
    expected.1.copy_within(..3, 4 * 3);
    assert_eq!(lent.bits(), expected);
    assert_eq!(lent.number(&Call::Drop { slot: 4 }), 0);
    expected.0[2564] = 0;
    assert_eq!(lent.bits(), expected);
}

/// 12 before 24; the file that Start read comes back.
#[test]
fn written_networks() {
    let mut lent = Lent::started();
    let file = file::write(&networks::three_segments());
    let written = |lent: &Lent, room| study::write(&lent.words, &lent.speeds, room);
    assert_eq!(written(&lent, file.len()), Ok(file.clone()));
    assert_eq!(written(&lent, file.len() - 1), Err(24));
    lent.words[2560] = 1_000_001;
    assert_eq!(written(&lent, 0), Err(12));
}
