//! Survey files: a day of arrivals, row by row.

use crate::cases::{arrivals, spoil_arrival};
use crate::random::Random;
use oracle::file::Network;
pub use oracle::survey::MOST_ROWS;

/// Bytes before the first row.
pub const HEAD: usize = 8;

/// Rows of n arrivals.
pub struct Day {
    pub n: usize,
    pub list: Vec<u32>,
}

impl Day {
    /// Some right rows for the network, or none; seldom many, and on a short
    /// road as many as a file can have.
    pub fn some(random: &mut Random, network: &Network) -> Day {
        let most = match random.below(200) {
            0 if network.segments.len() <= 2 => MOST_ROWS as u64,
            0..4 => 200,
            _ => 8,
        };
        let rows = random.edge(0, most);
        Day::of(random, network, rows)
    }

    /// So many right rows.
    pub fn of(random: &mut Random, network: &Network, rows: u64) -> Day {
        Day {
            n: network.segments.len(),
            list: (0..rows).flat_map(|_| arrivals(random, network)).collect(),
        }
    }

    pub fn rows(&self) -> std::slice::ChunksExact<'_, u32> {
        self.list.chunks_exact(self.n)
    }

    /// A row that 15 refuses, at any place; the only row where there is none.
    pub fn spoil_row(&mut self, random: &mut Random, network: &Network) {
        if self.list.is_empty() {
            self.list.resize(self.n, 0);
        }
        let last = self.rows().len() as u64 - 1;
        let row = random.edge(0, last) as usize;
        let row = &mut self.list[row * self.n..][..self.n];
        spoil_arrival(random, network, row);
    }

    /// The file of up to 20,000 rows.
    pub fn file(&self) -> Vec<u8> {
        let [high, low] = (self.rows().len() as u16).to_be_bytes();
        let mut file = vec![b'F', b'W', b'D', 0, 1, self.n as u8, high, low];
        file.extend(self.list.iter().flat_map(|number| number.to_be_bytes()));
        file
    }
}

/// The row count that a file of 8 bytes or more says.
pub fn row_count(file: &[u8]) -> usize {
    usize::from(u16::from_be_bytes([file[6], file[7]]))
}

/// Makes it a file of as many rows for another n.
pub fn put_n(file: &mut Vec<u8>, n: u8) {
    file[5] = n;
    file.resize(HEAD + 4 * usize::from(n) * row_count(file), 0);
}

/// A file for n segments whose arrivals are any numbers; one file in four has
/// any byte changed, or ends anywhere.
pub fn any_survey(next: &mut dyn FnMut() -> u64, n: usize) -> Vec<u8> {
    let rows = next() as usize % 6;
    let list = (0..n * rows).map(|_| next() as u32).collect();
    let mut file = Day { n, list }.file();
    let at = next() as usize % file.len().min(4 * HEAD);
    match next() % 8 {
        0 => file[at] ^= next() as u8,
        1 => file.truncate(next() as usize % (file.len() + 1)),
        _ => {}
    }
    file
}
