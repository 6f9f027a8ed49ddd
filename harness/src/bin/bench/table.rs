//! Rows of the table: how they are timed and printed.
//!
//! Rounds of the sides alternate, so that a busy machine slows both, and the
//! median round of each side counts. All rows are timed, then all again with
//! other arrays: repetitions of a row stand far apart in the run, and their
//! arrays in other places of memory.

use std::hint::black_box;
use std::time::Instant;

const REPETITIONS: usize = 5;
/// Rounds of each side in a repetition.
const ROUNDS: usize = 101;
/// Time that a round of the oracle should take.
const ROUND_NANOSECONDS: f64 = 250_000.0;
/// A call that takes the oracle longer than this is a round by itself, and
/// there are only few.
const LONG_NANOSECONDS: f64 = 10_000_000.0;
const FEW_ROUNDS: usize = 5;

/// What is called again and again.
pub trait Side {
    /// The timed call. It answers 0.
    fn call(&mut self) -> u64;

    /// What must be so after every round; not timed.
    fn expect(&self) {}

    /// Nanoseconds of one call, over a round of calls.
    fn round(&mut self, calls: u64) -> f64 {
        let start = Instant::now();
        for _ in 0..calls {
            assert_eq!(black_box(self.call()), 0, "an accepted call");
        }
        let elapsed = start.elapsed();
        self.expect();
        elapsed.as_nanos() as f64 / calls as f64
    }
}

/// Any call that keeps nothing.
impl<Call: FnMut() -> u64> Side for Call {
    fn call(&mut self) -> u64 {
        self()
    }
}

pub struct Row {
    pub name: &'static str,
    /// Number of segments.
    pub n: usize,
    /// Filled slots, where the row reads any.
    pub filled: Option<usize>,
    /// Equal parts of a call: times are those of one.
    pub parts: usize,
    pub engine: Box<dyn Side>,
    /// Taken off the engine's time, round by round.
    pub less: Option<Box<dyn Side>>,
    pub oracle: Box<dyn Side>,
}

/// Nanoseconds of one call on each side: medians of a repetition.
#[derive(Clone, Copy)]
struct Times {
    engine: f64,
    oracle: f64,
}

impl Times {
    fn ratio(self) -> f64 {
        self.engine / self.oracle
    }
}

/// Times the rows that are made for each repetition, and prints the table.
/// All are made before and kept, so that no two share a place in memory. The
/// engine's times of two rows are put beside each other where asked for.
pub fn print(make: impl Fn() -> Vec<Row>, beside: [&str; 2]) {
    let mut repetitions: Vec<Vec<Row>> = (0..REPETITIONS).map(|_| make()).collect();
    let timed = |rows: &mut Vec<Row>| rows.iter_mut().map(Row::time).collect();
    let times: Vec<Vec<Times>> = repetitions.iter_mut().map(timed).collect();
    println!(
        "{:<18} {:>3} {:>6} {:>11} {:>11} {:>7} {:>7} {:>8}",
        "call", "n", "slots", "engine ns", "oracle ns", "ratio", "lowest", "highest"
    );
    for (place, row) in repetitions[0].iter().enumerate() {
        row.print(times.iter().map(|rows| rows[place]).collect());
    }
    let ratios = || times.iter().flatten().map(|row| row.ratio());
    let lowest = ratios().fold(f64::MAX, f64::min);
    let highest = ratios().fold(f64::MIN, f64::max);
    println!("\n{REPETITIONS} repetitions of {ROUNDS} rounds a side, engine and oracle in turn; times are medians of rounds.");
    println!("Ratio: the middle of the repetitions, with its times. Of all rows: {lowest:.2} to {highest:.2}.");
    print_beside(&repetitions[0], &times, beside);
}

/// The engine's time of the one row divided by that of the other, with as many
/// segments and filled slots: the middle of the repetitions, and both ends.
fn print_beside(rows: &[Row], times: &[Vec<Times>], [name, other]: [&str; 2]) {
    let named = |name| (0..rows.len()).filter(move |&place| rows[place].name == name);
    for (one, other) in named(name).zip(named(other)) {
        let Row { n, filled, .. } = rows[one];
        assert_eq!((n, filled), (rows[other].n, rows[other].filled));
        let ratio = |times: &Vec<Times>| times[one].engine / times[other].engine;
        let mut ratios: Vec<f64> = times.iter().map(ratio).collect();
        ratios.sort_by(f64::total_cmp);
        let [lowest, middle, highest] = [0, REPETITIONS / 2, REPETITIONS - 1].map(|at| ratios[at]);
        let (of, filled) = (rows[other].name, filled.unwrap_or(0));
        println!("{name} / {of}, engine, n {n}, {filled} slots filled: {middle:.2} ({lowest:.2} to {highest:.2})");
    }
}

impl Row {
    /// One repetition.
    fn time(&mut self) -> Times {
        let (calls, rounds) = match self.oracle.round(1) {
            LONG_NANOSECONDS.. => (1, FEW_ROUNDS),
            _ => {
                let calls = ROUND_NANOSECONDS / self.oracle.round(100);
                (calls as u64 + 1, ROUNDS)
            }
        };
        let [mut engine, mut oracle] = [const { Vec::new() }; 2];
        for _ in 0..rounds {
            let whole = self.engine.round(calls);
            let less = self.less.as_mut().map_or(0.0, |side| side.round(calls));
            engine.push(whole - less);
            oracle.push(self.oracle.round(calls));
        }
        Times {
            engine: median(engine) / self.parts as f64,
            oracle: median(oracle) / self.parts as f64,
        }
    }

    /// The repetition with the middle ratio, then the lowest and the highest.
    fn print(&self, mut times: Vec<Times>) {
        times.sort_by(|a, b| a.ratio().total_cmp(&b.ratio()));
        let filled = self.filled.map_or("-".into(), |filled| filled.to_string());
        let middle @ Times { engine, oracle } = times[REPETITIONS / 2];
        let [ratio, lowest, highest] = [middle, times[0], times[REPETITIONS - 1]].map(Times::ratio);
        println!(
            "{:<18} {:>3} {filled:>6} {engine:>11.1} {oracle:>11.1} {ratio:>7.2} {lowest:>7.2} {highest:>8.2}",
            self.name, self.n
        );
    }
}

fn median(mut rounds: Vec<f64>) -> f64 {
    rounds.sort_by(f64::total_cmp);
    rounds[rounds.len() / 2]
}
