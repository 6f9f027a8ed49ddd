//! The same calls asked of the oracle: of its book, or on arrays.

use super::{Answer, Call, Start, RUN_FIGURES};
use oracle::book::{self, Book, Figures, Lengths};
use oracle::{file, study};

/// A call on arrays that hold a study, or anything.
pub fn ask_arrays(words: &mut [u64], speeds: &mut [f64], call: &Call) -> Answer {
    let mut answer = Answer::lent(call);
    let result = match call {
        Call::Sound => match study::number(words, speeds) {
            0 => Ok(Figures::new()),
            number => Err(number),
        },
        Call::Write { room } => study::write(words, speeds, *room).map(|file| {
            answer.give_bytes(&file);
            Figures::new()
        }),
        // No row is taken where there is too little room: 24 comes after what
        // refuses the same run of a copy.
        Call::Run { room, .. } if *room < RUN_FIGURES => study::call(
            &mut words.to_vec(),
            &mut speeds.to_vec(),
            &oracle_call(call),
        ),
        _ => study::call(words, speeds, &oracle_call(call)),
    };
    complete(answer, result)
}

/// The same call in the book.
pub fn ask_book(book: &mut Book, call: &Call) -> Answer {
    let mut answer = Answer::lent(call);
    let result = match call {
        Call::Sound => Ok(Figures::new()),
        Call::Write { .. } => {
            answer.give_bytes(&file::write(book.network()));
            Ok(Figures::new())
        }
        Call::Run { room, .. } if *room < RUN_FIGURES => book.clone().call(&oracle_call(call)),
        _ => book.call(&oracle_call(call)),
    };
    complete(answer, result)
}

/// The book that an accepted Start begins, or the number that refuses it.
pub fn begin_book(lengths: Lengths, start: &Start) -> Result<Book, u8> {
    Book::start(lengths, &oracle_start(start))
}

fn complete(mut answer: Answer, result: Result<Figures, u8>) -> Answer {
    match result {
        Ok(figures) => answer.give(&figures),
        Err(number) => answer.number = u64::from(number),
    }
    answer
}

/// The call in the oracle's words. Sound and Write are none of the book's.
fn oracle_call(call: &Call) -> book::Call<'_> {
    match *call {
        Call::Start(ref start) => book::Call::Start(oracle_start(start)),
        Call::Sign {
            segment,
            limit,
            compliance,
        } => book::Call::Sign {
            segment,
            limit,
            compliance,
        },
        Call::Meter { segment, setting } => book::Call::Meter { segment, setting },
        Call::Step(ref arrivals) => book::Call::Step { arrivals },
        Call::Run { ref file, .. } => book::Call::Run { file },
        Call::Hold(slot) => book::Call::Hold { slot },
        Call::Recall(slot) => book::Call::Recall { slot },
        Call::Drop(slot) => book::Call::Drop { slot },
        Call::Question {
            case, ref question, ..
        } => book::Call::Question { case, question },
        Call::RunCount { .. } | Call::Sound | Call::Write { .. } => book::Call::RunCount,
    }
}

fn oracle_start(start: &Start) -> book::Start<'_> {
    book::Start {
        file: &start.file,
        counts: &start.counts,
        speeds: &start.speeds,
        queues: &start.queues,
    }
}
