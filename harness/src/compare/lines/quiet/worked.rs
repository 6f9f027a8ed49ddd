//! The worked example of docs/CLAIM.md: the junction of tests/junction.fwn
//! empties, while signs hold back what comes from its first two segments.

use super::super::line::Line;
use super::step;
use crate::calls::{Call, Start};
use crate::compare::Difference;
use crate::random::Random;
use oracle::emptying::{longest_ways, way_left};
use oracle::file;

const FILE: &[u8] = include_bytes!("../../../../../tests/junction.fwn");
/// What is in each segment at first, in mv, and the number of segments on its
/// longest way out.
const COUNTS: [u64; 5] = [54_000, 45_000, 60_000, 12_000, 24_000];
const WAYS: [u64; 5] = [3, 3, 2, 1, 1];
/// 3 × 54,000 + 3 × 45,000 + 2 × 60,000 + 12,000 + 24,000.
const P: u64 = 453_000;
/// With T 10 and L 500 a segment is at this K from 18,000 mv on.
const K: u64 = 100;
/// Quiet steps that are taken, the one before which the signs go dark, and
/// those that begin with a segment at K. At most 4,530 may.
const STEPS: u64 = 60;
const DARK: u64 = 7;
const COUNTED: [u64; 8] = [1, 2, 3, 4, 5, 6, 7, 10];

pub fn one(random: &mut Random, _: u64) -> Result<(), Difference> {
    let network = file::parse(FILE).expect("an accepted file");
    let start = Start {
        file: FILE.into(),
        counts: COUNTS.into(),
        speeds: vec![90_000; 5],
        queues: vec![0; 5],
    };
    let mut line = Line::begin(random, network, start)?;
    let given = (
        longest_ways(&line.network),
        way_left(&line.network, &line.case),
    );
    let mut counted = Vec::new();
    for number in 1..=STEPS {
        match number {
            1 => signs(&mut line, 20, -500)?,
            DARK => signs(&mut line, 0, 0)?,
            _ => {}
        }
        if step(&mut line)? >= K {
            counted.push(number);
        }
    }
    if (given, &*counted) == ((WAYS.into(), P), &COUNTED) {
        return Ok(());
    }
    Err(Difference {
        what: format!("steps {counted:?} begin with a segment at K {K}"),
        input: FILE.into(),
    })
}

/// Both signs, at segments 1 and 2.
fn signs(line: &mut Line, limit: u64, compliance: i64) -> Result<(), Difference> {
    for segment in [1, 2] {
        line.take(Call::Sign {
            segment,
            limit,
            compliance,
        })?;
    }
    Ok(())
}
