//! Who works a list out: the book, or the calls on lent arrays.

use crate::laid::LIVE;
use crate::lent::Lent;
use oracle::book::{Book, Call, Figures};
use oracle::case::Collected;

pub trait Worker {
    fn answer(&mut self, call: &Call) -> Result<Figures, u8>;

    /// S, m and b of a segment (from 0) of the live case.
    fn unreported(&self, place: usize) -> [u64; 3];
}

impl Worker for Book {
    fn answer(&mut self, call: &Call) -> Result<Figures, u8> {
        self.call(call)
    }

    fn unreported(&self, place: usize) -> [u64; 3] {
        let state = &self.live().case().segments[place];
        let Collected { sum, steps } = state.collected;
        [sum, steps, state.remainder]
    }
}

impl Worker for Lent {
    fn answer(&mut self, call: &Call) -> Result<Figures, u8> {
        self.call(call)
    }

    fn unreported(&self, place: usize) -> [u64; 3] {
        let state = &self.words[LIVE + 16 * place..];
        [state[12], state[13], state[14]]
    }
}
