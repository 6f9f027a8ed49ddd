//! Published set-ups run with the engine, through the C interface: prints
//! the published figure and ours side by side. docs/SCENARIOS.md names what
//! each run takes from its source and what it assumes.

mod control;
mod coordination;
mod live;
mod road;
mod run;
mod shock_wave;
mod table;
mod two_ramps;

fn main() {
    table::head();
    coordination::rows();
    shock_wave::rows();
    two_ramps::rows();
}
