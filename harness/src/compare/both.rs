//! Calls on a study, on both sides: engine and oracle have arrays of their
//! own, which are the same before and after every call.

use super::Difference;
use crate::arrays::Arrays;
use crate::calls::{ask_arrays, ask_engine, Answer, Call};
use crate::engine::Function;
use crate::reached;
use std::fmt::Write;

pub struct Both {
    engine: Arrays,
    oracle: Arrays,
    /// The arrays before the next call.
    before: Arrays,
    /// The arrays at the beginning, and the calls since.
    first: Arrays,
    calls: Vec<(Function, Call)>,
}

impl Both {
    pub fn new(arrays: Arrays) -> Both {
        Both {
            engine: arrays.clone(),
            oracle: arrays.clone(),
            before: arrays.clone(),
            first: arrays,
            calls: Vec::new(),
        }
    }

    /// What the engine has made of its arrays.
    pub fn lent(&self) -> (&[u64], &[f64]) {
        let Arrays { words, speeds, .. } = &self.engine;
        let (lent_words, lent_speeds) = (self.engine.lent_words, self.engine.lent_speeds);
        (&words[..lent_words], &speeds[..lent_speeds])
    }

    /// Makes a call on both sides: the same number, figures and arrays.
    pub fn take(&mut self, call: Call) -> Result<Answer, Difference> {
        let (words, speeds) = self.engine.lent();
        let (function, engine) = ask_engine(words, speeds, &call);
        let (words, speeds) = self.oracle.lent();
        let oracle = ask_arrays(words, speeds, &call);
        let stays = engine.number != 0 || call.only_asks();
        self.calls.push((function, call));
        if engine != oracle {
            return Err(self.differs(&engine.beside(&oracle)));
        }
        self.compare(stays)?;
        if let Some((_, call)) = self.calls.last() {
            reached::note_answer(function, call, &self.engine.words, &engine);
        }
        Ok(engine)
    }

    /// A call that both sides must answer with this number.
    pub fn expect(&mut self, call: Call, number: u64) -> Result<Answer, Difference> {
        let answer = self.take(call)?;
        match answer.number == number {
            true => Ok(answer),
            false => {
                let what = format!("expected {number}, {} from both sides", answer.number);
                Err(self.differs(&what))
            }
        }
    }

    /// The engine's arrays are these, in every word and every bit.
    pub fn expect_arrays(&self, expected: &Arrays) -> Result<(), Difference> {
        match self.engine.first_difference(expected) {
            Some(what) => Err(self.differs(&what)),
            None => Ok(()),
        }
    }

    /// A call that is refused or only asks has left every word and every bit;
    /// any other has made the same of them on both sides.
    fn compare(&mut self, stays: bool) -> Result<(), Difference> {
        let expected = match stays {
            true => &self.before,
            false => &self.oracle,
        };
        self.expect_arrays(expected)?;
        if !stays {
            self.before.follow(&self.engine);
        }
        Ok(())
    }

    /// A difference after the last call. The input says how the arrays began
    /// and which calls were made.
    pub fn differs(&self, what: &str) -> Difference {
        let mut input = String::new();
        for (_, call) in &self.calls {
            writeln!(input, "{call:?}").expect("a string grows");
        }
        input += &self.first.in_words();
        let last = self
            .calls
            .last()
            .map(|(function, _)| format!(", {function:?}"));
        let last = last.unwrap_or_default();
        Difference {
            what: format!("call {}{last}: {what}", self.calls.len()),
            input: input.into_bytes(),
        }
    }
}
