//! What accepted calls do: lines, slots, run count and reports.

use crate::networks;
use crate::study::{ask, book, meter, number, sign, step};
use crate::study::{ALINEA, COUNTS, QUEUES, SPEEDS};
use oracle::book::{Book, Call, Figures, Question, Start, SLOTS};
use oracle::case::{Alinea, Setting, Sign};
use oracle::{file, survey};

fn case_report(book: &mut Book, case: u64) -> Figures {
    let report = book.call(&ask(case, &Question::Case));
    report.expect("a report of a case")
}

/// Of a segment of the live case.
fn segment_report(book: &mut Book, segment: u64) -> Figures {
    let report = book.call(&ask(0, &Question::Segment(segment)));
    report.expect("a report of a segment")
}

/// R as reported.
fn rate(book: &mut Book, segment: u64) -> u64 {
    segment_report(book, segment)[6]
}

/// All the book holds, to be compared before and after.
fn picture(book: &Book) -> String {
    format!("{book:?}")
}

/// Every kept case is the one that its line leads to.
fn assert_replays(book: &Book) {
    let slots = (1..=SLOTS).filter_map(|slot| book.slot(slot));
    for line in slots.chain([book.live()]) {
        assert_eq!(*line.case(), book.replay(line));
    }
}

#[test]
fn reports_after_start() {
    let mut book = book();
    assert_eq!(case_report(&mut book, 0), [0, 176_018, 12_001, 0, 0, 0]);
    let bits = 71_000_f64.to_bits();
    let figures = [61_007, 71_000, bits, 9_001, 0, 0, 5_500];
    assert_eq!(segment_report(&mut book, 2), figures);
    assert_eq!(rate(&mut book, 3), 0);
    assert_eq!(book.call(&Call::RunCount), Ok(vec![0]));
}

/// A refused step's arrivals are not counted, nor anything else of it.
#[test]
fn refused_calls_change_nothing() {
    let mut book = book();
    assert_eq!(number(&mut book, Call::Hold { slot: 2 }), 0);
    let before = picture(&book);
    let file = file::write(&networks::three_segments());
    let start = Start {
        file: &file,
        counts: &COUNTS,
        speeds: &[999; 3],
        queues: &QUEUES,
    };
    assert_eq!(number(&mut book, Call::Start(start)), 14);
    assert_eq!(number(&mut book, step(&[5, 5, 5])), 15);
    assert_eq!(number(&mut book, sign(1, 19, 0)), 18);
    assert_eq!(number(&mut book, meter(2, Setting::Fixed(9_999))), 20);
    assert_eq!(number(&mut book, Call::Hold { slot: 2 }), 22);
    assert_eq!(number(&mut book, Call::Recall { slot: 3 }), 23);
    assert_eq!(number(&mut book, Call::Drop { slot: 3 }), 23);
    assert_eq!(picture(&book), before);
}

#[test]
fn a_start_empties_everything() {
    let mut book = book();
    let fresh = picture(&book);
    assert_eq!(number(&mut book, step(&[1, 2, 0])), 0);
    assert_eq!(number(&mut book, Call::Hold { slot: 1 }), 0);
    let file = file::write(&networks::three_segments());
    let start = Start {
        file: &file,
        counts: &COUNTS,
        speeds: &SPEEDS,
        queues: &QUEUES,
    };
    assert_eq!(number(&mut book, Call::Start(start)), 0);
    assert_eq!(picture(&book), fresh);
}

/// A recalled case goes on without its slot, its steps counted on its line,
/// and the run count is never lowered.
#[test]
fn hold_recall_drop() {
    let mut book = book();
    let arrivals = [9_000, 2_500, 0];
    assert_eq!(number(&mut book, step(&arrivals)), 0);
    assert_eq!(number(&mut book, Call::Hold { slot: 4 }), 0);
    let held = case_report(&mut book, 4);
    assert_eq!(number(&mut book, step(&arrivals)), 0);
    let second = case_report(&mut book, 0);
    assert_eq!(case_report(&mut book, 4), held);
    assert_eq!(number(&mut book, Call::Recall { slot: 4 }), 0);
    assert_eq!(case_report(&mut book, 0), held);
    assert_eq!(number(&mut book, step(&arrivals)), 0);
    assert_eq!(case_report(&mut book, 0), second);
    assert_eq!(case_report(&mut book, 4), held);
    assert_eq!(book.runs(), 3);
    assert_eq!(book.live().items().len(), 2);
    assert_eq!(number(&mut book, Call::Drop { slot: 4 }), 0);
    assert!(book.slot(4).is_none());
    assert_eq!(case_report(&mut book, 0), second);
}

/// A meter starts afresh, and a dark sign keeps no compliance.
#[test]
fn signs_and_meters() {
    let mut book = book();
    let alinea = Setting::Alinea(ALINEA);
    assert_eq!(number(&mut book, meter(2, alinea)), 0);
    for _ in 0..3 {
        assert_eq!(number(&mut book, step(&[0; 3])), 0);
    }
    assert_ne!(rate(&mut book, 2), 5_500);
    assert_eq!(number(&mut book, meter(2, alinea)), 0);
    assert_eq!(rate(&mut book, 2), 5_500);
    assert_eq!(number(&mut book, meter(2, Setting::Fixed(12))), 0);
    assert_eq!(rate(&mut book, 2), 12);
    assert_eq!(number(&mut book, meter(2, Setting::Open)), 0);
    assert_eq!(rate(&mut book, 2), 5_500);
    assert_eq!(number(&mut book, sign(2, 80, 50)), 0);
    assert_eq!(number(&mut book, sign(2, 0, 50)), 0);
    assert_eq!(book.live().case().segments[1].sign, Sign::Dark);
}

/// Random calls: kept cases agree with replayed ones, and no mv are lost.
#[test]
fn kept_cases_agree_with_replayed_ones() {
    let mut book = book();
    let start = 176_018 + 12_001;
    let mut state = 1_u64;
    for round in 0..3_000 {
        let call_number = random(&mut state);
        random_call(&mut book, call_number);
        if round % 100 == 0 {
            assert_replays(&book);
        }
        let case = book.live().case();
        let present = case.in_segments() + case.in_queues() + case.exits;
        assert_eq!(present, start + case.arrivals);
    }
    assert_replays(&book);
    assert!(book.runs() > 1_000);
}

/// The next number of a linear congruential generator, its upper half.
pub fn random(state: &mut u64) -> u64 {
    *state = state
        .wrapping_mul(6_364_136_223_846_793_005)
        .wrapping_add(1_442_695_040_888_963_407);
    *state >> 32
}

fn random_call(book: &mut Book, number: u64) {
    let before = outline(book);
    let refused = with_call(number, |call| book.call(call).is_err());
    if refused {
        assert_eq!(outline(book), before);
    }
}

/// Hands over the call of that number. Mostly steps; some are refused.
pub fn with_call<Result>(number: u64, take: impl FnOnce(&Call) -> Result) -> Result {
    let (kind, rest) = (number % 16, number / 16);
    let slot = rest % 8;
    let arrivals = [(rest % 20_000) as u32, (rest % 7_001) as u32, 0];
    let interval = 1 + rest % 7;
    let alinea = Alinea { interval, ..ALINEA };
    let setting = match rest % 3 {
        0 => Setting::Open,
        1 => Setting::Fixed(rest % 6_000),
        _ => Setting::Alinea(alinea),
    };
    let rows = [arrivals, [rest as u32 % 5, 0, 0], [0, 0, (rest % 2) as u32]];
    let file = survey::write(3, rows.as_flattened(), 64).expect("three rows");
    take(&match kind {
        5 => Call::Run { file: &file },
        0 => Call::Hold { slot },
        1 => Call::Recall { slot },
        2 => Call::Drop { slot },
        3 => sign(rest % 5, rest % 220, (rest % 1_200) as i64 - 600),
        4 => meter(rest % 5, setting),
        _ => step(&arrivals),
    })
}

/// Figures that no refused call may change.
fn outline(book: &Book) -> (u64, usize, [bool; SLOTS]) {
    let filled = std::array::from_fn(|slot| book.slot(slot + 1).is_some());
    (book.runs(), book.live().items().len(), filled)
}
