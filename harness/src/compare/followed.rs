//! Calls on one study, on both sides and, from the first accepted Start on, in
//! the book.

use super::both::Both;
use super::Difference;
use crate::arrays::Arrays;
use crate::calls::{ask_book, begin_book, Answer, Call};
use oracle::book::{Book, Lengths};
use oracle::study::{self, Study};

pub struct Followed {
    lengths: Lengths,
    both: Both,
    /// Begins with the first accepted Start.
    book: Option<Book>,
}

impl Followed {
    pub fn new(arrays: Arrays) -> Followed {
        Followed {
            lengths: Lengths {
                words: arrays.lent_words,
                speeds: arrays.lent_speeds,
            },
            both: Both::new(arrays),
            book: None,
        }
    }

    pub fn book(&self) -> Option<&Book> {
        self.book.as_ref()
    }

    /// What the engine has made of its arrays.
    pub fn lent(&self) -> (&[u64], &[f64]) {
        self.both.lent()
    }

    /// The arrays hold the book's study, where one has begun.
    pub fn end(&self) -> Result<(), Difference> {
        let (words, speeds) = self.lent();
        match &self.book {
            Some(book) if study::read(words, speeds) != Ok(Study::of_book(book)) => {
                Err(self.differs("the study is not the book's"))
            }
            _ => Ok(()),
        }
    }

    /// A difference after the last call.
    pub fn differs(&self, what: &str) -> Difference {
        self.both.differs(what)
    }

    /// Engine and oracle answer the same, and so does the book.
    pub fn take(&mut self, call: Call) -> Result<Answer, Difference> {
        let expected = self.of_book(&call);
        let answer = self.both.take(call)?;
        match expected {
            Some(expected) if expected != answer => {
                let what = answer.beside(&expected);
                Err(self.both.differs(&format!("by the book {what}")))
            }
            _ => Ok(answer),
        }
    }

    /// The book's answer, or nothing where it has not begun.
    fn of_book(&mut self, call: &Call) -> Option<Answer> {
        if let Some(book) = &mut self.book {
            return Some(ask_book(book, call));
        }
        let Call::Start(start) = call else {
            return None;
        };
        let mut answer = Answer::lent(call);
        match begin_book(self.lengths, start) {
            Ok(book) => self.book = Some(book),
            Err(number) => answer.number = u64::from(number),
        }
        Some(answer)
    }
}
