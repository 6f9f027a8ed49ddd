//! Source document 003, section 5: 6.5 km of three lanes with an on-ramp, an
//! off-ramp and an on-ramp, as thirteen segments of 500 m.

use crate::control::{Ramp, Rule, GAIN};
use crate::live::Live;
use crate::road::{mv_a_step, network, plain, put_origin, Diagram};
use crate::run::{Outcome, SetUp};
use crate::table::{minutes, row, spent, BOUNDED};
use oracle::case::Alinea;

/// Segments of the on-ramps, and the one at whose end the off-ramp is.
const O1: u64 = 7;
const O2: u64 = 11;
const D1: usize = 8;
/// Demands at 1 h, in veh/h.
const MAIN: f64 = 4700.0;
const RAMP: f64 = 1000.0;
/// Capacity of an on-ramp in veh/h, and of the main origin.
const RAMP_CAPACITY: f64 = 2000.0;
const MAIN_CAPACITY: f64 = 6390.0;
/// Above this density in veh/km/lane we call a segment congested.
const CONGESTED: f64 = 40.0;

pub fn rows() {
    let set_up = set_up();
    let open = set_up.run(|_, _, _| {});
    let metered = set_up.run(metering());
    let signed = set_up.run(|live, _, time| show_signs(live, time));
    uncontrolled(&open);
    let without = open.time_spent;
    spent(
        "003",
        "ramp metering",
        "1060 (9.2 %)",
        without,
        metered.time_spent,
    );
    for (ramp, name) in [(O1, "O1"), (O2, "O2")] {
        let figure = format!("longest queue at {name}, veh");
        let queue = format!("{:.1}", metered.longest_queue(ramp as usize));
        row("003", "ramp metering", &figure, "at most 50", &queue);
    }
    spent("003", "signs", "1078 (7.6 %)", without, signed.time_spent);
}

fn uncontrolled(open: &Outcome) {
    let put = |figure: &str, published: &str, ours: String| {
        row("003", "no control", figure, published, &ours);
    };
    let (o1, o2) = (O1 as usize, O2 as usize);
    put(
        "time spent, veh·h",
        "1167",
        format!("{:.1}", open.time_spent),
    );
    put(
        "flow at O2's merge at 1 h, veh/h",
        "6400",
        format!("{:.0}", open.outflow(o2, 3600)),
    );
    put(
        "highest flow at O2's merge, veh/h",
        "6400",
        format!("{:.0}", open.most_outflow(o2)),
    );
    put(
        "longest queue at O2, veh",
        "18",
        format!("{:.1}", open.longest_queue(o2)),
    );
    put(
        "longest queue at the main origin, veh",
        "not given",
        format!("{:.1}", open.longest_queue(1)),
    );
    put(BOUNDED, "not given", open.bounded_by_speed());
    let at = minutes(open.first_above(o2, CONGESTED));
    put("congestion at O2's merge from, min", "after 60", at);
    let at = minutes(open.first_above(o1, CONGESTED));
    put("congestion at O1's merge from, min", "around 72", at);
}

/// ALINEA at both ramps with queues of at most 50 vehicles.
fn metering() -> impl FnMut(&mut Live, &[u32], u64) {
    let alinea = Alinea {
        target: 28,
        gain: u64::from(mv_a_step(GAIN)),
        least: u64::from(mv_a_step(0.05 * RAMP_CAPACITY)),
        interval: 3,
    };
    let mut ramps = [O1, O2].map(|segment| Ramp::new(segment, alinea, 50_000, Rule::First));
    move |live, arrivals, _| {
        for ramp in &mut ramps {
            ramp.act(live, arrivals);
        }
    }
}

/// From 1 h to 1.5 h: L1 (segments 4 to 6) at 0.5 and L4 (11 to 13) at 0.85
/// of the free speed, in whole km/h.
fn show_signs(live: &mut Live, time: u64) {
    let shown = (3600..5400).contains(&time);
    for segment in 4..=6 {
        live.sign(segment, if shown { 58 } else { 0 }, 0);
    }
    for segment in 11..=13 {
        live.sign(segment, if shown { 98 } else { 0 }, 0);
    }
}

fn set_up() -> SetUp {
    let diagram = Diagram {
        free: 115.0,
        exponent: 2.15,
        critical: 28.2,
    };
    let mut segments = vec![plain(500, 3, 28, 180); 13];
    put_origin(&mut segments[0], MAIN_CAPACITY);
    put_origin(&mut segments[O1 as usize - 1], RAMP_CAPACITY);
    put_origin(&mut segments[O2 as usize - 1], RAMP_CAPACITY);
    segments[D1 - 1].exit_share = 50;
    SetUp {
        network: network(&diagram, 0, segments),
        diagram,
        demand,
        peak: 0.0,
        duration: 9000,
    }
}

/// Half of the demands at 1 h at time 0, rising evenly until 1.25 h, steady
/// until 1.5 h, falling evenly to half at 2 h; then 1,000 veh/h on the main
/// road and none on the ramps.
fn demand(_: &SetUp, segment: u64, time: u64) -> f64 {
    let hours = time as f64 / 3600.0;
    if hours >= 2.0 {
        return if segment == 1 { 1000.0 } else { 0.0 };
    }
    let highest = 0.5 + 0.5 * 1.25;
    let fall = (highest - 0.5) * ((hours - 1.5) / 0.5).clamp(0.0, 1.0);
    let share = 0.5 + 0.5 * hours.min(1.25) - fall;
    share * if segment == 1 { MAIN } else { RAMP }
}
