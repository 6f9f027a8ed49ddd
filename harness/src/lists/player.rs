//! The arrays of one list, and the calls made on them.

use super::arguments::{parse, Named, Words};
use super::calls;
use crate::arrays::Arrays;
use crate::calls::{ask_engine, Answer, Call};
use crate::random::Random;
use crate::stored_case::state_word;
use crate::study::{case_word, speeds_for, words_for};

pub struct Player {
    /// As long as the longest lengths of the list and more, garbage at first.
    arrays: Arrays,
    /// The arrays before the next call.
    before: Arrays,
    named: Named,
    /// The file of the last accepted start.
    file: Box<[u8]>,
    asked: usize,
}

impl Player {
    /// For the list in these lines.
    pub fn new(text: &str) -> Result<Player, String> {
        let (mut words, mut speeds) = (0, 0);
        for line in text.lines().filter(|line| line.starts_with("lens ")) {
            let lengths = lengths(line)?;
            (words, speeds) = (words.max(lengths.0), speeds.max(lengths.1));
        }
        let arrays = Arrays::garbage(&mut Random::new(0, 0, 0), words, speeds, true);
        Ok(Player {
            before: arrays.clone(),
            arrays,
            named: Named::new(),
            file: Box::default(),
            asked: 0,
        })
    }

    /// Calls that were made with an answer to compare.
    pub fn asked(&self) -> usize {
        self.asked
    }

    /// One line, with the answer that the next line gives to a call.
    pub fn line(&mut self, line: &str, answer: Option<&str>) -> Result<(), String> {
        let (kind, rest) = line.split_once(' ').unwrap_or((line, ""));
        match (kind, answer) {
            ("rules", None) => Ok(()),
            ("lens", None) => {
                (self.arrays.lent_words, self.arrays.lent_speeds) = lengths(line)?;
                Ok(())
            }
            ("let", None) => {
                let (name, bytes) = rest.split_once(' ').ok_or("bytes are missing")?;
                let bytes = Words::of(bytes, &self.named).bytes()?;
                self.named.insert(name.into(), bytes);
                Ok(())
            }
            ("times", Some(answer)) => {
                let (times, call) = rest.split_once(' ').ok_or("a call is missing")?;
                self.call(call, answer, parse(times)?)
            }
            (_, Some(answer)) => self.call(line, answer, 1),
            (_, None) => Err("no answer".into()),
        }
    }

    /// A call so many times, each time with this answer.
    fn call(&mut self, line: &str, answer: &str, times: u64) -> Result<(), String> {
        let call = calls::call(&mut Words::of(line, &self.named))?;
        let mut answer = Words::of(answer, &self.named);
        let expected = calls::answers(&call, &mut answer, &self.file)?;
        self.asked += 1;
        (0..times).try_for_each(|_| self.expect(&call, &expected))
    }

    /// The engine answers one of these. A refused call and a question leave
    /// both arrays; any other leaves what is past the needed lengths.
    pub fn expect(&mut self, call: &Call, expected: &[Answer]) -> Result<(), String> {
        let (words, speeds) = self.arrays.lent();
        let (function, answer) = ask_engine(words, speeds, call);
        if !expected.contains(&answer) {
            return Err(format!("{function:?}: {}", answer.beside(&expected[0])));
        }
        let stays = answer.number != 0 || call.only_asks();
        if let (Call::Start(start), false) = (call, stays) {
            self.file = start.file.clone();
        }
        if !stays {
            self.follow();
        }
        match self.arrays.first_difference(&self.before) {
            Some(what) => Err(format!("{function:?}: {what}")),
            None => Ok(()),
        }
    }

    /// A word of the state of a segment (from 0) of a case.
    pub fn word(&self, case: usize, place: usize, word: usize) -> u64 {
        let n = usize::from(self.file[6]);
        self.arrays.words[case_word(n, case) + state_word(place, word)]
    }

    /// What the study of the last accepted start needs may have changed.
    fn follow(&mut self) {
        let n = usize::from(self.file[6]);
        let (words, speeds) = (words_for(n), speeds_for(n));
        self.before.words[..words].copy_from_slice(&self.arrays.words[..words]);
        self.before.speeds[..speeds].copy_from_slice(&self.arrays.speeds[..speeds]);
    }
}

/// The lengths that a line lends.
fn lengths(line: &str) -> Result<(usize, usize), String> {
    let named = Named::new();
    let mut words = Words::of(line, &named);
    words.expect("lens")?;
    let lengths = (words.number()?, words.number()?);
    words.end()?;
    Ok(lengths)
}
