//! How long a queue takes to drain, by what the paper permits, and of a ramp
//! of a study: segment 2 of three, with a queue of 9,001 mv and Q 5,500.

use crate::study::{ask, book, meter, number, step};
use oracle::book::{Book, Call, Question};
use oracle::case::Setting;
use oracle::drain::Drain;

/// The queue after so many steps, each of which releases the rate, or all that
/// is left.
fn queue_after(queue: u64, rate: u64, steps: u64) -> u64 {
    (0..steps).fold(queue, |left, _| left - rate.min(left))
}

fn permitted(queue: u64, rate: u64, drain: Drain) -> bool {
    match drain {
        Drain::Never => rate == 0 && queue > 0,
        Drain::Steps(steps) if queue == 0 => steps == 0,
        Drain::Steps(steps) => {
            rate > 0 && queue_after(queue, rate, steps) == 0 && steps <= queue / rate + 1
        }
    }
}

/// The figures of a drain at segment 2.
fn drain(book: &mut Book, case: u64) -> Vec<u64> {
    let drain = book.call(&ask(case, &Question::Drain(2)));
    drain.expect("a drain of a ramp")
}

fn fixed(book: &mut Book, rate: u64) {
    assert_eq!(number(book, meter(2, Setting::Fixed(rate))), 0);
}

#[test]
fn small_queues_and_rates_are_as_permitted() {
    for queue in 0..300 {
        for rate in 0..70 {
            let drain = Drain::of(queue, rate);
            assert!(permitted(queue, rate, drain), "{queue}, {rate}: {drain:?}");
        }
    }
}

#[test]
fn long_queues() {
    const MOST: u64 = 1_000_000_000_000;
    assert_eq!(Drain::of(MOST, 1), Drain::Steps(MOST + 1));
    assert_eq!(Drain::of(MOST, 300_000), Drain::Steps(3_333_334));
    assert_eq!(Drain::of(MOST, 0), Drain::Never);
}

/// 9,001 are gone in two steps of 5,500, and in ten of 1,000.
#[test]
fn by_the_rate_as_it_is_reported() {
    let mut book = book();
    assert_eq!(drain(&mut book, 0), [0, 2]);
    fixed(&mut book, 1_000);
    assert_eq!(drain(&mut book, 0), [0, 10]);
    fixed(&mut book, 0);
    assert_eq!(drain(&mut book, 0), [1, 0]);
}

/// The held case drains as before, whatever is metered in the live one.
#[test]
fn of_a_held_case() {
    let mut book = book();
    assert_eq!(number(&mut book, Call::Hold { slot: 3 }), 0);
    fixed(&mut book, 0);
    assert_eq!(drain(&mut book, 3), [0, 2]);
    assert_eq!(drain(&mut book, 0), [1, 0]);
}

#[test]
fn no_queue_takes_no_steps_at_any_rate() {
    let mut book = book();
    while drain(&mut book, 0) != [0, 0] {
        assert_eq!(number(&mut book, step(&[0; 3])), 0);
    }
    fixed(&mut book, 0);
    assert_eq!(drain(&mut book, 0), [0, 0]);
}

#[test]
fn rows_in_their_order() {
    let mut book = book();
    let mut refused = |case, segment| number(&mut book, ask(case, &Question::Drain(segment)));
    for segment in [0, 1, 2, 4, u64::MAX] {
        assert_eq!(refused(7, segment), 21);
        assert_eq!(refused(6, segment), 23);
    }
    assert_eq!([0, 4, u64::MAX].map(|segment| refused(0, segment)), [17; 3]);
    assert_eq!([1, 3].map(|segment| refused(0, segment)), [19; 2]);
}
