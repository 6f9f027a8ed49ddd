//! Rows of the check of a file.

use crate::busy::{junctions, road, JUNCTIONS, ROADS};
use crate::table::Row;
use harness::engine;
use oracle::file::{self, Network};
use std::hint::black_box;

pub fn rows() -> Vec<Row> {
    let chains = ROADS.map(|(n, curves)| row("check", &road(n, curves)));
    let others = JUNCTIONS.map(|(n, curves)| row("check, junctions", &junctions(n, curves)));
    chains.into_iter().chain(others).collect()
}

fn row(name: &'static str, network: &Network) -> Row {
    let bytes = file::write(network);
    let same = bytes.clone();
    Row {
        name,
        n: network.segments.len(),
        filled: None,
        parts: 1,
        engine: Box::new(move || engine::network_check(black_box(&bytes))),
        less: None,
        oracle: Box::new(move || u64::from(file::check(black_box(&same)))),
    }
}
