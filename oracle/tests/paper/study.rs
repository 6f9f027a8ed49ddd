//! A study of three segments, and calls on it.

use crate::networks;
use oracle::book::{Book, Call, Lengths, Question, Start};
use oracle::case::{Alinea, Setting};
use oracle::file;
use oracle::network::Network;

/// Exactly the room for three segments.
pub const ROOM: Lengths = room(3);

/// Exactly the room for n segments.
pub const fn room(n: usize) -> Lengths {
    Lengths {
        words: 2560 + 7 * (16 * n + 8) + 16,
        speeds: 7 * n,
    }
}

/// mv, m/h and mv at the start.
pub const COUNTS: [u64; 3] = [45_000, 61_007, 70_011];
pub const SPEEDS: [u64; 3] = [88_000, 71_000, 64_000];
pub const QUEUES: [u64; 3] = [3_000, 9_001, 0];

pub const ALINEA: Alinea = Alinea {
    target: 40,
    gain: 700,
    least: 400,
    interval: 2,
};

/// Start with these counts, speeds and queues.
pub fn start(network: &Network, room: Lengths, lists: [&[u64]; 3]) -> Result<Book, u8> {
    let [counts, speeds, queues] = lists;
    let file = file::write(network);
    let start = Start {
        file: &file,
        counts,
        speeds,
        queues,
    };
    Book::start(room, &start)
}

pub fn book() -> Book {
    let network = networks::three_segments();
    start(&network, ROOM, [&COUNTS, &SPEEDS, &QUEUES]).expect("a good start")
}

/// The number that refuses a call, 0 if none.
pub fn number(book: &mut Book, call: Call) -> u8 {
    book.call(&call).err().unwrap_or(0)
}

pub fn sign(segment: u64, limit: u64, compliance: i64) -> Call<'static> {
    Call::Sign {
        segment,
        limit,
        compliance,
    }
}

pub fn meter(segment: u64, setting: Setting) -> Call<'static> {
    Call::Meter { segment, setting }
}

pub fn step(arrivals: &[u32]) -> Call<'_> {
    Call::Step { arrivals }
}

pub fn ask(case: u64, question: &Question) -> Call<'_> {
    Call::Question { case, question }
}
