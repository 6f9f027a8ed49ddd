//! One line: the engine's arrays, and beside them the typed case with the
//! arrays that it should be laid out in.

use super::outflows::Outflows;
use crate::arrays::Arrays;
use crate::calls::{ask_engine, Call, Start};
use crate::cases::MOST_STEPS;
use crate::compare::Difference;
use crate::random::Random;
use crate::reached;
use crate::stored_case::{total_word, STEPS};
use crate::study::{case_word, put_case_at, put_study, speeds_for, words_for, RUNS};
use oracle::book::SLOTS;
use oracle::case::{Case, Sign};
use oracle::file::Network;
use oracle::step;

pub struct Line {
    pub network: Network,
    pub case: Case,
    outflows: Outflows,
    engine: Arrays,
    expected: Arrays,
}

impl Line {
    /// Start on arrays full of garbage. It writes the network and the live
    /// case with all that is between them, and makes the free words there 0.
    pub fn begin(random: &mut Random, network: Network, start: Start) -> Result<Line, Difference> {
        let n = network.segments.len();
        let words = words_for(n) + random.edge(0, 300) as usize;
        let speeds = speeds_for(n) + random.edge(0, 20) as usize;
        let engine = Arrays::garbage(random, words, speeds, true);
        let mut expected = engine.clone();
        let case = Case::start(&network, &start.counts, &start.speeds, &start.queues);
        expected.words[..case_word(n, 1)].fill(0);
        put_study(&network, 0, &[0; SLOTS], &mut expected.words);
        put_case_at(0, &case, &mut expected);
        let mut line = Line {
            outflows: Outflows::none(&network),
            network,
            case,
            engine,
            expected,
        };
        line.expect(&Call::Start(start), 0)?;
        Ok(line)
    }

    /// Puts the number of steps on the line so far, which Start has made 0.
    pub fn put_steps(&mut self, steps: u64) {
        self.case.steps = steps;
        let n = self.network.segments.len();
        let at = case_word(n, 0) + total_word(n, STEPS);
        (self.engine.words[at], self.expected.words[at]) = (steps, steps);
    }

    /// An accepted sign, meter or step.
    pub fn take(&mut self, call: Call) -> Result<(), Difference> {
        match call {
            Call::Sign {
                segment,
                limit,
                compliance,
            } => self.case.segments[segment as usize - 1].sign = Sign::of(limit, compliance),
            Call::Meter { segment, setting } => {
                let place = segment as usize - 1;
                self.case.segments[place].set_meter(&self.network.segments[place], setting);
            }
            Call::Step(ref arrivals) => {
                reached::note_step(&self.network, &self.case, arrivals);
                self.outflows.begin(&self.network, &self.case);
                step::step(&self.network, &mut self.case, arrivals);
                self.outflows.end(&self.case);
                self.expected.words[RUNS] += 1;
            }
            _ => unreachable!("no item of a line"),
        }
        put_case_at(0, &self.case, &mut self.expected);
        self.expect(&call, 0)
    }

    /// Nothing is lost to rounding, and a line of 20,000 steps has no other.
    pub fn end(&mut self) -> Result<(), Difference> {
        let none = Call::Step(vec![0; self.network.segments.len()].into());
        if let Some(what) = self.outflows.wrong(&self.network) {
            return Err(self.differs(&none, what));
        }
        match self.case.steps {
            MOST_STEPS => self.expect(&none, 16),
            _ => Ok(()),
        }
    }

    /// The engine answers this number and leaves what is expected.
    pub fn expect(&mut self, call: &Call, number: u64) -> Result<(), Difference> {
        let (words, speeds) = self.engine.lent();
        let (function, answer) = ask_engine(words, speeds, call);
        if answer.number != number {
            let what = format!("{function:?}: expected {number}, engine {}", answer.number);
            return Err(self.differs(call, what));
        }
        if let Some(what) = self.engine.first_difference(&self.expected) {
            return Err(self.differs(call, format!("{function:?}: {what}")));
        }
        reached::note(function, number);
        Ok(())
    }

    pub fn differs(&self, call: &Call, what: String) -> Difference {
        let expected = self.expected.in_words();
        Difference {
            what,
            input: format!("{call:?}\nexpected after it:\n{expected}").into_bytes(),
        }
    }
}
