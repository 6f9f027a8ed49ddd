//! Rows of survey files: read, written and run.

use crate::busy::{self, LINE_STEPS, ROADS};
use crate::study;
use crate::table::{Row, Side};
use harness::engine;
use oracle::book::SLOTS;
use oracle::survey;
use std::hint::black_box;

/// Rows of a file that is read or written.
const ROWS: usize = 1_000;
/// Rows of a run that is divided by them: so many that the judging before the
/// first hardly counts, so few that a round is not long.
const RUN_ROWS: usize = 250;

/// The row that is put beside a step.
pub const ROW_OF_A_RUN: &str = "row of a run";

pub fn rows() -> Vec<Row> {
    let (n, curves) = ROADS[ROADS.len() - 1];
    let network = busy::road(n, curves);
    let file = busy::survey(&network, ROWS);
    let mut rows = vec![reader(n, &file), writer(n, &file)];
    for (n, curves) in ROADS {
        let network = busy::road(n, curves);
        for filled in [0, SLOTS] {
            rows.push(study::run(
                ROW_OF_A_RUN,
                &network,
                filled,
                RUN_ROWS,
                RUN_ROWS,
            ));
        }
    }
    let day = LINE_STEPS as usize;
    rows.push(study::run("day of 20000 rows", &network, 0, day, 1));
    rows
}

fn reader(n: usize, file: &[u8]) -> Row {
    let places = n * ROWS;
    let (file, same) = (file.to_vec(), file.to_vec());
    let (mut list, mut figures) = (vec![0; places], [0]);
    let mut other = (vec![0; places], [0]);
    let segments = n as u64;
    row(
        "survey read",
        n,
        move || engine::survey_read(black_box(&file), segments, &mut list, &mut figures),
        move || match survey::read(black_box(&same), segments, places) {
            Ok((rows, list)) => {
                other.0.copy_from_slice(&list);
                other.1[0] = rows;
                0
            }
            Err(number) => u64::from(number),
        },
    )
}

fn writer(n: usize, file: &[u8]) -> Row {
    let segments = n as u64;
    let (_, list) = survey::read(file, segments, n * ROWS).expect("a right file");
    let same = list.clone();
    let (mut out, mut other) = (vec![0; file.len()], vec![0; file.len()]);
    row(
        "survey write",
        n,
        move || engine::survey_write(segments, black_box(&list), &mut out),
        move || match survey::write(segments, black_box(&same), other.len()) {
            Ok(file) => {
                other.copy_from_slice(&file);
                0
            }
            Err(number) => u64::from(number),
        },
    )
}

fn row(
    name: &'static str,
    n: usize,
    engine: impl Side + 'static,
    oracle: impl Side + 'static,
) -> Row {
    Row {
        name,
        n,
        filled: None,
        parts: 1,
        engine: Box::new(engine),
        less: None,
        oracle: Box::new(oracle),
    }
}
