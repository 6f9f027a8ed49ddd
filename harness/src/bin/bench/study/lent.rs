//! A study in lent arrays with the arguments of its calls, for either side.

use crate::busy::{self, Jams, LINE_STEPS};
use crate::table::Side;
use harness::calls::RUN_FIGURES;
use harness::random::Random;
use harness::stored_case::{put_case, state_word, total_word};
use harness::stored_case::{ARRIVALS, COMPLIANCE, COUNT, EXITS, LIMIT, QUEUE, STEPS, TIME};
use harness::study::{case_word, speeds_for, words_for, Study, RUNS};
use harness::surveys::row_count;
use oracle::book::SLOTS;
use oracle::file::{self, Network};
use oracle::network::Origin;

/// One timed call, or three. It answers 0 where all are accepted.
pub type Work = fn(&mut Lent) -> u64;

pub struct Lent {
    pub words: Box<[u64]>,
    pub speeds: Box<[f64]>,
    /// What a report gave.
    pub figures: [u64; 7],
    pub arguments: Arguments,
    work: Work,
    turn: usize,
}

/// What is handed to the calls beside the arrays.
pub struct Arguments {
    network: Network,
    pub file: Vec<u8>,
    /// Initial mv, speeds and queues: for the engine, and for the oracle.
    pub lists: [Vec<u32>; 3],
    pub wide_lists: [Vec<u64>; 3],
    arrivals: Vec<Vec<u32>>,
    /// A survey file, where rows are run.
    survey: Vec<u8>,
    /// N before every step, where it is put.
    jams: Option<Jams>,
    /// The case that reports are of: the live one, or the last filled slot.
    pub case: u64,
    /// The segment that a report is of, and the last with a ramp, or 0.
    pub segment: u64,
    pub ramp: u64,
}

impl Lent {
    /// The same traffic live and in the first slots.
    pub fn new(network: &Network, filled: usize, work: Work) -> Lent {
        let n = network.segments.len();
        let study = Study {
            network: network.clone(),
            runs: 0,
            marks: std::array::from_fn(|slot| u64::from(slot < filled)),
            cases: vec![Some(busy::traffic(network)); SLOTS + 1],
        };
        let arrays = study.laid(&mut Random::new(1, 1, 1));
        Lent {
            words: arrays.words[..words_for(n)].into(),
            speeds: arrays.speeds[..speeds_for(n)].into(),
            figures: [0; 7],
            arguments: Arguments::new(network, filled),
            work,
            turn: 0,
        }
    }

    /// The same with a sign at segment 1 whose speed is below the curve's
    /// entry at the critical density.
    pub fn with_slow_origin(mut self) -> Lent {
        let n = self.arguments.network.segments.len();
        let live = &mut self.words[case_word(n, 0)..];
        (live[state_word(0, LIMIT)], live[state_word(0, COMPLIANCE)]) = (40, 550);
        self
    }

    /// The same with ALINEA at every ramp, which moves its rate in every step.
    pub fn with_meters(mut self) -> Lent {
        let network = &self.arguments.network;
        let live = &mut self.words[case_word(network.segments.len(), 0)..];
        put_case(&busy::metered(network), live, &mut self.speeds);
        self
    }

    /// The same with N just below or just above J × G at every ramp before
    /// every step, in a random order.
    pub fn with_jams(mut self) -> Lent {
        self.arguments.jams = Some(Jams::new(&self.arguments.network));
        self
    }

    /// The same with a queue at the last ramp of the case that is asked about.
    pub fn with_queue(mut self) -> Lent {
        let n = self.arguments.network.segments.len();
        let case = case_word(n, self.arguments.case as usize);
        let ramp = self.arguments.ramp as usize - 1;
        self.words[case + state_word(ramp, QUEUE)] = 987_654;
        self
    }

    /// The same with a survey file of so many rows.
    pub fn with_survey(mut self, rows: usize) -> Lent {
        self.arguments.survey = busy::survey(&self.arguments.network, rows);
        self
    }

    /// Every word, every bit and every figure is the same.
    pub fn same(&self, other: &Lent) -> bool {
        let bits = |lent: &Lent| lent.speeds.iter().map(|v| v.to_bits()).collect::<Vec<_>>();
        self.words == other.words && bits(self) == bits(other) && self.figures == other.figures
    }

    /// Puts totals and run count back, and gives the arrays and the arrivals
    /// of the next step.
    pub fn next_step(&mut self) -> (&mut [u64], &mut [f64], &[u32]) {
        self.step_after(self.turn as u64 % LINE_STEPS)
    }

    /// The same for the step after so many.
    pub fn step_after(&mut self, steps: u64) -> (&mut [u64], &mut [f64], &[u32]) {
        self.put_back(steps);
        self.put_jams();
        let arrivals = &self.arguments.arrivals;
        let arrivals = &arrivals[self.turn % arrivals.len()];
        self.turn += 1;
        (&mut self.words, &mut self.speeds, arrivals)
    }

    /// Puts totals and run count back, and gives the arrays, the figures and
    /// the survey file of the next run.
    pub fn next_run(&mut self) -> (&mut [u64], &mut [f64], &mut [u64], &[u8]) {
        let rows = row_count(&self.arguments.survey);
        self.put_back((self.turn * rows) as u64 % LINE_STEPS);
        self.turn += 1;
        let figures = &mut self.figures[..RUN_FIGURES];
        (
            &mut self.words,
            &mut self.speeds,
            figures,
            &self.arguments.survey,
        )
    }

    /// Rows that the last run did not take.
    pub fn rows_left(&self) -> u64 {
        row_count(&self.arguments.survey) as u64 - self.figures[0]
    }

    /// Totals and run count as after so many steps on the line.
    fn put_back(&mut self, steps: u64) {
        let n = self.arguments.network.segments.len();
        self.words[RUNS] = 0;
        let totals = &mut self.words[case_word(n, 0) + total_word(n, 0)..];
        totals[STEPS] = steps;
        (totals[ARRIVALS], totals[EXITS], totals[TIME]) = (0, 0, 0);
    }

    /// N of every segment before this step, where it is put.
    fn put_jams(&mut self) {
        let Arguments { network, jams, .. } = &self.arguments;
        let Some(jams) = jams else { return };
        let live = &mut self.words[case_word(network.segments.len(), 0)..];
        for (place, count) in jams.counts(self.turn).enumerate() {
            live[state_word(place, COUNT)] = count;
        }
    }
}

impl Side for Lent {
    fn call(&mut self) -> u64 {
        (self.work)(self)
    }

    fn expect(&self) {
        let network = &self.arguments.network;
        let n = network.segments.len();
        let count = |place| self.words[case_word(n, 0) + state_word(place, COUNT)];
        busy::expect(network, (0..n).map(count));
    }
}

impl Arguments {
    fn new(network: &Network, filled: usize) -> Arguments {
        let segments = busy::traffic(network).segments;
        let wide_lists = [
            segments.iter().map(|state| state.count).collect(),
            segments.iter().map(|state| state.speed as u64).collect(),
            segments.iter().map(|state| state.queue).collect(),
        ];
        let narrow = |list: &Vec<u64>| list.iter().map(|&number| number as u32).collect();
        let ramps = (0..segments.len()).filter(|&place| network.origin(place) == Origin::Ramp);
        Arguments {
            network: network.clone(),
            file: file::write(network),
            lists: wide_lists.each_ref().map(narrow),
            wide_lists,
            arrivals: busy::arrivals(network),
            survey: Vec::new(),
            jams: None,
            case: filled as u64,
            segment: segments.len() as u64,
            ramp: ramps.last().map_or(0, |place| place as u64 + 1),
        }
    }
}
