//! Rows of the calls on a study of a busy road.
//!
//! Both sides are lent arrays of the same content: each judges the network
//! and every filled case, and does the call. Before every step totals and run
//! count are put back, so that no bound is ever reached; steps go round from
//! 0 to 19,999, so that ALINEA's intervals divide them as on a line.

mod engine_side;
mod lent;
mod oracle_side;

use crate::busy::{self, JUNCTIONS, RAMPS, ROADS};
use crate::table::{Row, Side};
use lent::{Lent, Work};
use oracle::book::SLOTS;
use oracle::file::Network;

/// Name of the row, whether filled slots matter, and its work on each side.
const WORKS: [(&str, bool, Work, Work); 5] = [
    ("start", false, engine_side::start, oracle_side::start),
    ("step", true, engine_side::step, oracle_side::step),
    ("report", true, engine_side::report, oracle_side::report),
    (
        "segment report",
        true,
        engine_side::report_segment,
        oracle_side::report_segment,
    ),
    (
        "hold recall drop",
        true,
        engine_side::hold_recall_drop,
        oracle_side::hold_recall_drop,
    ),
];

pub fn rows() -> Vec<Row> {
    let mut rows = Vec::new();
    for (name, slots_matter, engine, oracle) in WORKS {
        for (n, curves) in ROADS {
            let network = busy::road(n, curves);
            rows.push(row(name, &network, 0, [engine, oracle]));
            match slots_matter {
                true => rows.push(row(name, &network, SLOTS, [engine, oracle])),
                false => rows.last_mut().expect("a row").filled = None,
            }
        }
    }
    for filled in [0, SLOTS] {
        rows.extend(RAMPS.map(|road| drain(road, filled)));
    }
    rows.extend(ROADS.map(slow_origin));
    rows.extend(RAMPS.map(metered));
    rows.extend(RAMPS.map(jammed));
    rows.extend(JUNCTIONS.map(junctions));
    rows
}

/// The drain of a queue at the last ramp.
fn drain((n, curves): (usize, usize), filled: usize) -> Row {
    let network = busy::road(n, curves);
    let works = [engine_side::drain, oracle_side::drain];
    let lent = works.map(|work| Lent::new(&network, filled, work).with_queue());
    sides("drain", lent, 100)
}

/// Step on a road that parts and meets.
fn junctions((n, curves): (usize, usize)) -> Row {
    let network = busy::junctions(n, curves);
    let works = [engine_side::step, oracle_side::step];
    row("step, junctions", &network, 0, works)
}

/// Step, with the origin of segment 1 bounded by the speed of a sign.
fn slow_origin((n, curves): (usize, usize)) -> Row {
    let network = busy::road(n, curves);
    let works = [engine_side::step, oracle_side::step];
    let lent = works.map(|work| Lent::new(&network, 0, work).with_slow_origin());
    sides("step, slow origin", lent, 100)
}

/// Step, with every ramp metered.
fn metered((n, curves): (usize, usize)) -> Row {
    let network = busy::road(n, curves);
    let works = [engine_side::step, oracle_side::step];
    let lent = works.map(|work| Lent::new(&network, 0, work).with_meters());
    sides("step, metered", lent, 100)
}

/// Step, with N at every ramp now below, now above J × G.
fn jammed((n, curves): (usize, usize)) -> Row {
    let network = busy::road(n, curves);
    let works = [engine_side::step, oracle_side::step];
    let lent = works.map(|work| Lent::new(&network, 0, work).with_jams());
    sides("step, jammed", lent, 100)
}

/// The engine's Step, with empty slots.
pub fn taken_step(network: &Network) -> impl Side {
    Lent::new(network, 0, engine_side::step)
}

/// The same on a line that has taken all its steps.
pub fn refused_step(network: &Network) -> impl Side {
    Lent::new(network, 0, engine_side::refused_step)
}

/// A run of so many rows, of which each is a part or all are one.
pub fn run(name: &'static str, network: &Network, filled: usize, rows: usize, parts: usize) -> Row {
    let works = [engine_side::run, oracle_side::run];
    let lent = works.map(|work| Lent::new(network, filled, work).with_survey(rows));
    Row {
        parts,
        ..sides(name, lent, 1)
    }
}

fn row(name: &'static str, network: &Network, filled: usize, works: [Work; 2]) -> Row {
    sides(
        name,
        works.map(|work| Lent::new(network, filled, work)),
        100,
    )
}

/// Both sides, the same after so many calls.
fn sides(name: &'static str, [mut engine, mut oracle]: [Lent; 2], calls: u64) -> Row {
    for _ in 0..calls {
        assert_eq!((engine.call(), oracle.call()), (0, 0), "accepted calls");
    }
    assert!(engine.same(&oracle), "{name}: the sides differ");
    Row {
        name,
        n: engine.arguments.segment as usize,
        filled: Some(engine.arguments.case as usize),
        parts: 1,
        engine: Box::new(engine),
        less: None,
        oracle: Box::new(oracle),
    }
}
