//! `make bench`: engine and oracle (the second implementation) side by side,
//! in one table. Ratios are the engine's time divided by the oracle's.
//!
//! Both sides do the same work on arrays of the same content, all reading and
//! judging included: the engine through its C functions, the oracle through
//! its calls on arrays. There the engine reads in place; the oracle makes
//! typed data of the network and the live case, and its reports read their
//! case once more. Roads are busy ones of 1, 12 and 40 segments with 1, 2 and
//! 8 curves; those with junctions have a file of version 2. Rows:
//!
//! - check: the number of a network file. Junctions: of the road below.
//! - step alone: the one row of unlike work. Engine: Step less the same call
//!   refused by 16, which reads and judges only. Oracle: the bare step on
//!   typed data, with nothing read, judged or stored.
//! - start: Start on a file, over a study with empty slots. The lists are
//!   numbers of 32 bits for the engine and of 64 for the oracle.
//! - step: Step. Slow origin: segment 1 shows 40 km/h, so that its origin is
//!   bounded by speed in every step. Metered: every ramp has ALINEA with z 1,
//!   so that its rate moves in every step; elsewhere a third of them has it,
//!   with z 6. Jammed: before every step N is put just below or just above
//!   J × G at every ramp, in a random order. Junctions: each first of four
//!   segments parts into the next two, which meet in the fourth.
//! - report, segment report: of the live case, or of slot 6 where slots are
//!   filled; the segment is the last.
//! - drain: of the same case, at the last ramp; its queue is longer than R.
//! - hold recall drop: three calls, each judged, on slot 6. Where slots are
//!   filled it is Drop, Hold, Recall: slot 6 is empty between the first two.
//! - survey read, survey write: a file of 1,000 rows, and its list.
//! - row of a run: a run of 250 rows, divided by them. Below the table the
//!   engine's time stands beside that of its step.
//! - day of 20000 rows: a run of as many rows as a line has steps.
//!
//! "Slots" is how many are filled; check, step alone, start, survey read and
//! survey write read none.
//!
//! In the time: the caller's loop, a few words put back before every step or
//! run so that no bound is reached, and a look at the number. Not in it:
//! refused calls, Sign, Meter, the run count, Write, the program `tallies`;
//! arrays that are not in the processor's caches; several threads.

mod alone;
mod busy;
mod check;
mod study;
mod survey;
mod table;

fn main() {
    table::print(rows, [survey::ROW_OF_A_RUN, "step"]);
}

fn rows() -> Vec<table::Row> {
    let mut rows = check::rows();
    rows.extend(alone::rows());
    rows.extend(study::rows());
    rows.extend(survey::rows());
    rows
}
