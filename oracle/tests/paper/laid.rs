//! A study laid out in arrays word by word, apart from the oracle's code.

use crate::lent::Lent;
use oracle::case::{Alinea, Case, Collected, Setting, Sign};
use oracle::network::{Followers, Network};
use oracle::study::ARRANGEMENT;

/// The first word of the live case.
pub const LIVE: usize = 2576;

impl Lent {
    /// The network and the live case; every slot is empty.
    pub fn laid(network: &Network, runs: u64, case: &Case) -> Lent {
        let mut lent = Lent::free(network.segments.len());
        lent.lay_network(network);
        lent.lay(2560, [runs, 0, 0, 0, 0, 0, 0]);
        lent.lay(2575, [ARRANGEMENT]);
        lent.lay_live(case);
        lent
    }

    fn lay_network(&mut self, network: &Network) {
        self.lay(0, [u64::from(network.step), network.segments.len() as u64]);
        self.lay(2, [network.curves.len() as u64]);
        self.lay(3, [network.relaxation, network.anticipation, network.kappa]);
        self.lay(6, [network.merging, network.version]);
        for (curve, entries) in network.curves.iter().enumerate() {
            self.lay(16 + 201 * curve, *entries);
        }
        for (place, segment) in network.segments.iter().enumerate() {
            let at = 1624 + 16 * place;
            self.lay(at, [segment.length, segment.lanes.into()]);
            self.lay(at + 2, [segment.curve, segment.critical, segment.jam]);
            self.lay(at + 5, [u16::from(segment.origin), segment.exit_share]);
            self.lay(at + 7, [segment.most_released]);
            let Followers {
                first,
                second,
                share,
            } = segment.followers;
            self.lay(at + 8, [first, second]);
            self.lay(at + 10, [share]);
        }
    }

    fn lay_live(&mut self, case: &Case) {
        for (place, state) in case.segments.iter().enumerate() {
            let at = LIVE + 16 * place;
            self.lay(at, [state.count, state.queue]);
            self.lay(at + 2, sign_words(state.sign));
            self.lay(at + 4, setting_words(state.setting, state.rate));
            self.lay(at + 10, [state.last_outflow, state.last_release]);
            let Collected { sum, steps } = state.collected;
            self.lay(at + 12, [sum, steps, state.remainder]);
            self.speeds[place] = state.speed;
        }
        let at = LIVE + 16 * case.segments.len();
        self.lay(at, [case.steps, case.arrivals, case.exits, case.time]);
    }

    fn lay<Number: Into<u64>, const COUNT: usize>(&mut self, at: usize, list: [Number; COUNT]) {
        let words = list.map(Number::into);
        self.words[at..at + COUNT].copy_from_slice(&words);
    }
}

fn sign_words(sign: Sign) -> [u64; 2] {
    match sign {
        Sign::Dark => [0, 0],
        Sign::Shown { limit, compliance } => [limit, (compliance + 500) as u64],
    }
}

fn setting_words(setting: Setting, rate: u64) -> [u64; 6] {
    match setting {
        Setting::Open => [0, rate, 0, 0, 0, 0],
        Setting::Fixed(_) => [1, rate, 0, 0, 0, 0],
        Setting::Alinea(alinea) => {
            let Alinea {
                target,
                gain,
                least,
                interval,
            } = alinea;
            [2, rate, target, gain, least, interval]
        }
    }
}
