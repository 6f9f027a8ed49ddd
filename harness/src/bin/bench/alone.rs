//! Rows of the step by itself, with nothing read or judged.
//!
//! The same case is stepped again and again. Its totals are put back before
//! every call, so that no bound is ever reached; steps go round from 0 to
//! 19,999, so that ALINEA's intervals divide them as on a line.

use crate::busy::{self, LINE_STEPS, ROADS};
use crate::study::{refused_step, taken_step};
use crate::table::{Row, Side};
use oracle::case::Case;
use oracle::file::Network;
use oracle::step;
use std::hint::black_box;

pub fn rows() -> Vec<Row> {
    ROADS.map(row).into()
}

fn row((n, curves): (usize, usize)) -> Row {
    let network = busy::road(n, curves);
    Row {
        name: "step alone",
        n,
        filled: None,
        parts: 1,
        engine: Box::new(taken_step(&network)),
        less: Some(Box::new(refused_step(&network))),
        oracle: Box::new(Typed {
            case: busy::traffic(&network),
            arrivals: busy::arrivals(&network),
            turn: 0,
            network,
        }),
    }
}

/// The oracle's typed case.
struct Typed {
    network: Network,
    case: Case,
    arrivals: Vec<Vec<u32>>,
    turn: usize,
}

impl Side for Typed {
    fn call(&mut self) -> u64 {
        let case = &mut self.case;
        case.steps = self.turn as u64 % LINE_STEPS;
        (case.arrivals, case.exits, case.time) = (0, 0, 0);
        let arrivals = &self.arrivals[self.turn % self.arrivals.len()];
        self.turn += 1;
        step::step(black_box(&self.network), case, black_box(arrivals));
        0
    }

    fn expect(&self) {
        let counts = self.case.segments.iter().map(|state| state.count);
        busy::expect(&self.network, counts);
    }
}
