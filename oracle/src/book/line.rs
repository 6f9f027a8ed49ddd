//! A line: what was done since Start, and the case that it leads to.

use crate::case::{Case, Setting, Sign};
use crate::network::Network;
use crate::step::step;

/// An accepted sign, meter or step. Segments count from 0 here.
#[derive(Clone, Debug, PartialEq, Eq)]
pub enum Item {
    Sign {
        place: usize,
        sign: Sign,
    },
    Meter {
        place: usize,
        setting: Setting,
    },
    /// Arrivals in mv.
    Step(Box<[u32]>),
}

#[derive(Clone, Debug)]
pub struct Line {
    items: Vec<Item>,
    /// The case of the line, changed with each item appended.
    case: Case,
}

impl Line {
    /// The empty line of a start case.
    pub fn new(start: Case) -> Line {
        Line {
            items: Vec::new(),
            case: start,
        }
    }

    pub fn items(&self) -> &[Item] {
        &self.items
    }

    pub fn case(&self) -> &Case {
        &self.case
    }

    pub(super) fn append(&mut self, network: &Network, item: Item) {
        change(network, &mut self.case, &item);
        self.items.push(item);
    }

    /// The start case changed by each item in order.
    pub(super) fn replay(&self, network: &Network, start: &Case) -> Case {
        let mut case = start.clone();
        for item in &self.items {
            change(network, &mut case, item);
        }
        case
    }
}

/// What one item does to a case.
fn change(network: &Network, case: &mut Case, item: &Item) {
    match item {
        Item::Sign { place, sign } => case.segments[*place].sign = *sign,
        Item::Meter { place, setting } => {
            case.segments[*place].set_meter(&network.segments[*place], *setting)
        }
        Item::Step(arrivals) => step(network, case, arrivals),
    }
}
