//! The live case of a study in lent arrays, by the engine's C functions.
//! A refused call ends the program with its number.

use harness::calls::{ask_engine, Answer, Call, Question, Start};
use harness::study::{speeds_for, words_for};
use oracle::case::Setting;
use oracle::file::{write, Network};

pub struct Live {
    words: Vec<u64>,
    speeds: Vec<f64>,
    network: Network,
}

/// Of one segment, in mv: what is in it and in its queue, outflow and release
/// of the last step, and the rate R.
pub struct Seen {
    pub count: u64,
    pub queue: u64,
    pub outflow: u64,
    pub release: u64,
    pub rate: u64,
}

impl Live {
    /// Mv and speeds (whole m/h) of each segment; no queues.
    pub fn start(network: &Network, counts: Vec<u64>, speeds: Vec<u64>) -> Live {
        let n = network.segments.len();
        let mut live = Live {
            words: vec![0; words_for(n)],
            speeds: vec![0.0; speeds_for(n)],
            network: network.clone(),
        };
        live.call(Call::Start(Start {
            file: write(network).into(),
            counts,
            speeds,
            queues: vec![0; n],
        }));
        live
    }

    pub fn network(&self) -> &Network {
        &self.network
    }

    /// Limit in km/h, 0 is dark; compliance in thousandths.
    pub fn sign(&mut self, segment: u64, limit: u64, compliance: i64) {
        self.call(Call::Sign {
            segment,
            limit,
            compliance,
        });
    }

    pub fn meter(&mut self, segment: u64, setting: Setting) {
        self.call(Call::Meter { segment, setting });
    }

    /// Arrivals in mv.
    pub fn step(&mut self, arrivals: &[u32]) {
        self.call(Call::Step(arrivals.into()));
    }

    pub fn seen(&mut self, segment: u64) -> Seen {
        let figures = self.ask(Question::Segment(segment), 7);
        Seen {
            count: figures[0],
            queue: figures[3],
            outflow: figures[4],
            release: figures[5],
            rate: figures[6],
        }
    }

    /// Time spent so far, in veh·h.
    pub fn time_spent(&mut self) -> f64 {
        let figures = self.ask(Question::Case, 6);
        figures[5] as f64 / 3_600_000.0
    }

    /// The figures of a question about the live case.
    fn ask(&mut self, question: Question, room: usize) -> Box<[u64]> {
        let case = 0;
        let question = Call::Question {
            case,
            question,
            room,
        };
        self.call(question).figures
    }

    fn call(&mut self, call: Call) -> Answer {
        let (_, answer) = ask_engine(&mut self.words, &mut self.speeds, &call);
        assert_eq!(answer.number, 0, "refused: {call:?}");
        answer
    }
}
