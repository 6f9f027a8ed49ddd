//! Source document 000, section 4: six segments of 1 km, an on-ramp at the
//! fifth, signs at the third and fourth.

use crate::control::{Ramp, Rule, GAIN};
use crate::live::Live;
use crate::road::{mv_a_step, network, plain, put_origin, Diagram};
use crate::run::{Outcome, SetUp};
use crate::table::{row, spent, BOUNDED};
use oracle::case::Alinea;

const RAMP: u64 = 5;
const SIGNED: [u64; 2] = [3, 4];
const QUARTER: f64 = 900.0;
/// 50 min, when segment 1 is slow, in seconds.
const SLOW: u64 = 3000;
/// Demands in veh/h.
const MAIN: f64 = 3500.0;
const MAIN_LOW: f64 = 1000.0;
const RAMP_LOW: f64 = 500.0;
/// What the signs show, in km/h.
const LIMIT: u64 = 50;
/// The ramp's longest queue in vehicles, which control is to keep.
const LONGEST: u64 = 100;

/// Both readings of "near capacity".
pub fn rows() {
    cases(1500.0);
    cases(1800.0);
}

fn cases(peak: f64) {
    let set_up = set_up(peak);
    let open = set_up.run(|_, _, _| {});
    uncontrolled(&format!("no control, ramp peak {peak:.0}"), &open);
    turning_point(peak, &set_up.run(control(Rule::First, 0)));
    for (rule, name) in [(Rule::First, "first rule"), (Rule::Second, "second rule")] {
        let metered = set_up.run(control(rule, 0));
        let case = format!("ramp metering, {name}, ramp peak {peak:.0}");
        controlled(&case, "1382.6 (5.3 %)", &open, &metered);
        let signed = set_up.run(control(rule, LIMIT));
        let case = format!("ramp metering and signs, {name}, ramp peak {peak:.0}");
        controlled(&case, "1251.0 (14.3 %)", &open, &signed);
    }
}

/// Whether the first rule then lets the whole demand in goes by this density.
fn turning_point(peak: f64, metered: &Outcome) {
    let case = format!("ramp metering, either rule, ramp peak {peak:.0}");
    let figure = "density of the ramp's segment when O2's queue comes to 100, veh/km/lane";
    let density = metered.density_at_queue(RAMP as usize, LONGEST);
    let ours = density.map_or("never".into(), |density| format!("{density:.1}"));
    row("000", &case, figure, "not given", &ours);
}

fn controlled(case: &str, published: &str, open: &Outcome, outcome: &Outcome) {
    spent("000", case, published, open.time_spent, outcome.time_spent);
    let queue = format!("{:.0}", outcome.longest_queue(RAMP as usize));
    row(
        "000",
        case,
        "longest queue at O2, veh",
        "at most 100",
        &queue,
    );
}

fn uncontrolled(case: &str, open: &Outcome) {
    let put = |figure: &str, published: &str, ours: String| {
        row("000", case, figure, published, &ours);
    };
    let time = format!("{:.1}", open.time_spent);
    put("time spent, veh·h", "1460.0", time);
    let queue = format!("{:.0}", open.longest_queue(1));
    put("longest queue at O1, veh", "about 150", queue);
    put(BOUNDED, "only drawn", open.bounded_by_speed());
    let queue = format!("{:.0}", open.queue(1, SLOW));
    put("queue at O1 at 50 min, veh", "only drawn", queue);
    let density = format!("{:.1}", open.density(1, SLOW));
    let figure = "density of segment 1 at 50 min, veh/km/lane";
    put(figure, "only drawn", density);
    for (segment, name) in [(1, "segment 1"), (RAMP as usize, "the ramp's segment")] {
        let figure = format!("density of {name} at 2 h, veh/km/lane");
        let density = format!("{:.1}", open.density(segment, 7200));
        put(&figure, "about 50", density);
    }
}

/// ALINEA with a queue of at most that length; while the queue is full the
/// signs show the limit, 0 for dark, with 10 % added by drivers.
fn control(rule: Rule, limit: u64) -> impl FnMut(&mut Live, &[u32], u64) {
    let alinea = Alinea {
        target: 34,
        gain: u64::from(mv_a_step(GAIN)),
        least: 0,
        interval: 6,
    };
    let mut ramp = Ramp::new(RAMP, alinea, 1000 * LONGEST, rule);
    move |live, arrivals, _| {
        ramp.act(live, arrivals);
        let shown = if ramp.full() { limit } else { 0 };
        for segment in SIGNED {
            live.sign(segment, shown, 100);
        }
    }
}

fn set_up(peak: f64) -> SetUp {
    let diagram = Diagram {
        free: 102.0,
        exponent: 1.867,
        critical: 33.5,
    };
    let mut segments = vec![plain(1000, 2, 34, 180); 6];
    put_origin(&mut segments[0], 4000.0);
    put_origin(&mut segments[RAMP as usize - 1], 2000.0);
    SetUp {
        network: network(&diagram, 12, segments),
        diagram,
        demand,
        peak,
        duration: 9000,
    }
}

/// Main road: high for 2 h, falls for 15 min, then low. Ramp: each of low,
/// rise, peak and fall takes 15 min, then low.
fn demand(set_up: &SetUp, segment: u64, time: u64) -> f64 {
    let quarters = time as f64 / QUARTER;
    if segment == 1 {
        return MAIN - (MAIN - MAIN_LOW) * (quarters - 8.0).clamp(0.0, 1.0);
    }
    let risen = (quarters - 1.0).clamp(0.0, 1.0) - (quarters - 3.0).clamp(0.0, 1.0);
    RAMP_LOW + (set_up.peak - RAMP_LOW) * risen
}
