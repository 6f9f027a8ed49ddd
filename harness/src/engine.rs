//! The engine's C functions: each is named in this table, with its arguments
//! and the numbers that refuse it. A comparison in which one of these numbers
//! never comes up fails.
//!
//! `[T]` is a list that is read and `[mut T]` one that may be written; each is
//! handed over as pointer and length. `study` is the two arrays of a study,
//! lent for writing whatever the header says, so that a function that should
//! only read them is seen if it writes. Every function becomes a safe wrapper
//! of its own name and a member of `Function`.

#[macro_use]
mod declared;

functions! {
    network_check(file: [u8]) refused by [1, 2, 3, 4, 5, 6, 7, 27, 8, 28];
    network_curve_number(file: [u8], curve: u64)
        refused by [1, 2, 3, 4, 5, 6, 7, 27, 8, 28, 10];
    network_curve(file: [u8], curve: u64, place: [mut u64])
        refused by [1, 2, 3, 4, 5, 6, 7, 27, 8, 28, 10, 24];
    network_place(file: [u8], place: [mut u64]) refused by [24];

    survey_read(file: [u8], n: u64, arrivals: [mut u32], figures: [mut u64])
        refused by [25, 26, 24];
    survey_write(n: u64, arrivals: [u32], out: [mut u8]) refused by [26, 24];

    study_sound(study) refused by [12];
    study_start(study, file: [u8], mvs: [u32], initial_speeds: [u32], queues: [u32])
        refused by [1, 2, 3, 4, 5, 6, 7, 27, 8, 28, 11, 13, 14];
    study_sign(study, segment: u64, limit: u64, compliance: i64) refused by [12, 17, 18];
    study_meter_open(study, segment: u64) refused by [12, 17, 19];
    study_meter_fixed(study, segment: u64, rate: u64) refused by [12, 17, 19, 20];
    study_meter_alinea(study, segment: u64, target: u64, gain: u64, least: u64, interval: u64)
        refused by [12, 17, 19, 20];
    study_step(study, arrivals: [u32]) refused by [12, 13, 15, 16];
    study_run(study, file: [u8], figures: [mut u64]) refused by [12, 25, 26, 24];
    study_hold(study, slot: u64) refused by [12, 21, 22];
    study_recall(study, slot: u64) refused by [12, 21, 23];
    study_drop(study, slot: u64) refused by [12, 21, 23];
    study_report(study, study_case: u64, figures: [mut u64]) refused by [12, 21, 23, 24];
    study_report_segment(study, study_case: u64, segment: u64, figures: [mut u64])
        refused by [12, 21, 23, 17, 24];
    study_drain(study, study_case: u64, segment: u64, figures: [mut u64])
        refused by [12, 21, 23, 17, 19, 24];
    study_run_count(study, figures: [mut u64]) refused by [12, 24];
    study_write(study, out: [mut u8]) refused by [12, 24];
}

/// Asks a function of the table: which one it is, and what it answers.
macro_rules! asked {
    ($function:ident($($argument:expr),*)) => {
        (
            $crate::engine::Function::$function,
            $crate::engine::$function($($argument),*),
        )
    };
}
pub(crate) use asked;
