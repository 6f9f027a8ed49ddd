//! What each segment has let out over a line: the whole part of the sum of
//! N × s × T, divided by 3600 × L once, however many steps there were.

use oracle::case::Case;
use oracle::file::Network;

/// Of each segment, over the steps so far.
pub struct Outflows {
    /// The sum of N × s × T.
    products: Vec<u128>,
    /// mv let out.
    passed: Vec<u128>,
}

impl Outflows {
    pub fn none(network: &Network) -> Outflows {
        let none = vec![0; network.segments.len()];
        Outflows {
            products: none.clone(),
            passed: none,
        }
    }

    /// Adds a step that begins with this case.
    pub fn begin(&mut self, network: &Network, case: &Case) {
        for (product, state) in self.products.iter_mut().zip(&case.segments) {
            let metres = state.whole_speed() * u64::from(network.step);
            *product += u128::from(state.count) * u128::from(metres);
        }
    }

    /// The case that this step leaves.
    pub fn end(&mut self, case: &Case) {
        for (passed, state) in self.passed.iter_mut().zip(&case.segments) {
            *passed += u128::from(state.last_outflow);
        }
    }

    /// The first segment (from 1) whose outflows are not that, in words.
    pub fn wrong(&self, network: &Network) -> Option<String> {
        let both = self.products.iter().zip(&self.passed);
        for (place, (product, passed)) in both.enumerate() {
            let whole = product / u128::from(network.segments[place].remainder_end());
            if whole != *passed {
                let segment = place + 1;
                return Some(format!("segment {segment} let out {passed}, not {whole}"));
            }
        }
        None
    }
}
