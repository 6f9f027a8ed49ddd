//! Row 16 through calls alone: lines of 20,000 steps, each begun by recalling
//! the start case, until 1,000,000 steps have been accepted since Start. Every
//! second line is a run after few steps; the last is a run, and ends halfway.

use super::Difference;
use crate::calls::{ask_book, ask_engine, begin_book, good_start, Answer, Call};
use crate::cases::MOST_STEPS;
use crate::networks::calm_road;
use crate::random::Random;
use crate::reached;
use crate::study::{speeds_for, words_for, MOST_RUNS};
use crate::surveys::Day;
use oracle::book::{Book, Lengths};
use oracle::study;

/// A study of one segment, and its book.
struct Long {
    words: Vec<u64>,
    speeds: Vec<f64>,
    book: Book,
}

pub fn one(random: &mut Random, _: u64) -> Result<(), Difference> {
    let network = calm_road(random, 1);
    let start = good_start(random, &network);
    let (words, speeds) = (words_for(1), speeds_for(1));
    let Ok(book) = begin_book(Lengths { words, speeds }, &start) else {
        return Err(differs("Start refused".into()));
    };
    let mut long = Long {
        words: vec![0; words],
        speeds: vec![0.0; speeds],
        book,
    };
    let start = Call::Start(start);
    let (_, answer) = ask_engine(&mut long.words, &mut long.speeds, &start);
    expect(&answer, 0)?;
    long.take(Call::Hold(1), 0)?;
    long.steps(random, MOST_STEPS / 2)?;
    long.take(Call::Recall(1), 0)?;
    for line in 1..MOST_RUNS / MOST_STEPS {
        let few = if line % 2 == 0 { line } else { MOST_STEPS };
        long.steps(random, few)?;
        long.run(random, [MOST_STEPS - few, 16])?;
        long.take(step(random), 16)?;
        long.figures()?;
        long.take(Call::Recall(1), 0)?;
    }
    long.run(random, [MOST_STEPS / 2, 16])?;
    long.take(step(random), 16)?;
    long.take(Call::Recall(1), 0)?;
    long.run(random, [0, 16])?;
    long.take(Call::Step([u32::MAX].into()), 15)?;
    long.figures()
}

fn step(random: &mut Random) -> Call {
    Call::Step([arrival(random)].into())
}

fn arrival(random: &mut Random) -> u32 {
    random.below(2_000) as u32
}

impl Long {
    fn steps(&mut self, random: &mut Random, steps: u64) -> Result<(), Difference> {
        (0..steps).try_for_each(|_| self.take(step(random), 0).map(|_| ()))
    }

    /// A run of 20,000 rows ends with these figures.
    fn run(&mut self, random: &mut Random, figures: [u64; 2]) -> Result<(), Difference> {
        let list = (0..MOST_STEPS).map(|_| arrival(random)).collect();
        let file = Day { n: 1, list }.file().into();
        let room = figures.len();
        let answer = self.take(Call::Run { file, room }, 0)?;
        match *answer.figures == figures {
            true => Ok(()),
            false => Err(differs(format!("run: {figures:?}, {:?}", answer.figures))),
        }
    }

    /// Engine and book answer the same, and this number.
    fn take(&mut self, call: Call, number: u64) -> Result<Answer, Difference> {
        let (function, engine) = ask_engine(&mut self.words, &mut self.speeds, &call);
        expect(&engine, number)?;
        let book = ask_book(&mut self.book, &call);
        if engine != book {
            return Err(differs(engine.beside(&book)));
        }
        reached::note_answer(function, &call, &self.words, &engine);
        Ok(engine)
    }

    /// The live case and the run count are the book's.
    fn figures(&self) -> Result<(), Difference> {
        let book = &self.book;
        match study::read(&self.words, &self.speeds) {
            Ok(study) if study.live == *book.live().case() && study.runs == book.runs() => Ok(()),
            study => Err(differs(format!("{study:?} after {} steps", book.runs()))),
        }
    }
}

fn expect(answer: &Answer, number: u64) -> Result<(), Difference> {
    match answer.number == number {
        true => Ok(()),
        false => Err(differs(format!("expected {number}, {}", answer.number))),
    }
}

fn differs(what: String) -> Difference {
    Difference {
        what,
        input: Vec::new(),
    }
}
