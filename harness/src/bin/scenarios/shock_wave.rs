//! Source document 002, section IV: twelve segments of 1 km, no ramps. The
//! published wave comes from a density behind the last segment, which a study
//! cannot be given; here a sign at segment 12 makes one.

use crate::live::Live;
use crate::road::{network, plain, put_origin, Diagram};
use crate::run::{Outcome, SetUp};
use crate::table::{row, spent, BOUNDED};

const LAST: usize = 12;
const TIME: &str = "time spent, veh·h";
const SIGNED: std::ops::RangeInclusive<u64> = 6..=10;
/// The sign that makes the wave: km/h, and until when in seconds.
const WAVE_LIMIT: u64 = 20;
const WAVE_END: u64 = 300;
/// The controlled case's signs: km/h, from and until when in seconds.
const LIMIT: u64 = 50;
const FROM: u64 = 300;
const UNTIL: u64 = 2100;

pub fn rows() {
    let set_up = set_up();
    let calm = set_up.run(|_, _, _| {});
    let wave = set_up.run(|live, _, time| make_wave(live, time));
    let signed = set_up.run(|live, _, time| {
        make_wave(live, time);
        show_signs(live, time);
    });
    let density = format!("{:.1}", calm.density(LAST, set_up.duration));
    let figure = "density of segment 12 at the end, veh/km/lane";
    row("002", "no wave", figure, "28", &density);
    let time = format!("{:.1}", calm.time_spent);
    row("002", "no wave", TIME, "not given", &time);
    uncontrolled(&wave);
    let without = wave.time_spent;
    spent(
        "002",
        "wave, signs",
        "1466.7 (20.1 %)",
        without,
        signed.time_spent,
    );
}

fn uncontrolled(wave: &Outcome) {
    let put = |figure: &str, published: &str, ours: String| {
        row("002", "wave, no control", figure, published, &ours);
    };
    put(TIME, "1835.3", format!("{:.1}", wave.time_spent));
    put("speed of the wave, km/h", "about 22", wave_speed(wave));
    put(BOUNDED, "not given", wave.bounded_by_speed());
    for segment in [11, 8, 1] {
        let figure = format!("highest density of segment {segment}, veh/km/lane");
        let highest = wave.density(segment, wave.peak_time(segment));
        put(&figure, "only drawn", format!("{highest:.1}"));
    }
}

/// From the highest density of segment 11 to that of segment 1, 10 km on.
fn wave_speed(wave: &Outcome) -> String {
    let (from, to) = (wave.peak_time(11), wave.peak_time(1));
    match to > from {
        true => format!("{:.1}", 10.0 * 3600.0 / (to - from) as f64),
        false => "none".into(),
    }
}

fn make_wave(live: &mut Live, time: u64) {
    let limit = if time < WAVE_END { WAVE_LIMIT } else { 0 };
    live.sign(LAST as u64, limit, 0);
}

/// Drivers add 5 %.
fn show_signs(live: &mut Live, time: u64) {
    let limit = if (FROM..UNTIL).contains(&time) {
        LIMIT
    } else {
        0
    };
    for segment in SIGNED {
        live.sign(segment, limit, 50);
    }
}

fn set_up() -> SetUp {
    let diagram = Diagram {
        free: 102.0,
        exponent: 1.867,
        critical: 33.5,
    };
    let mut segments = vec![plain(1000, 2, 34, 180); LAST];
    put_origin(&mut segments[0], 4000.0);
    SetUp {
        network: network(&diagram, 0, segments),
        diagram,
        demand: |_, _, _| 3900.0,
        peak: 0.0,
        duration: 7200,
    }
}
