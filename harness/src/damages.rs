//! Damages to a valid file, to a survey file, to a stored network, to a sound case, or to what a
//! study keeps between the two, each with the number that it must bring.

mod chain;
mod curves;
mod figures;
mod followers;
mod head;
mod length;
mod marks;
mod ramps;
mod records;
mod settings;
mod signs;
mod speeds;
mod stored;
mod survey;

use crate::arrays::Arrays;
use crate::draft::Draft;
use crate::networks::{Roads, Shape};
use crate::random::Random;
use crate::stored_case::CaseDraft;
use crate::words::Stored;
use oracle::file::Network;
pub use stored::outside;

/// The part of the file that a damage is done to.
#[derive(Clone, Copy, PartialEq, Eq)]
pub enum Part {
    /// Head, or the file as a whole.
    File,
    Curve,
    Record,
    FirstRecord,
    LaterRecord,
    LastRecord,
    /// A record that has another after it, in a file of version 2.
    FollowedRecord,
    /// Any record of a file of version 2.
    JunctionRecord,
    /// A record past the first, in a file of version 2.
    LaterJunctionRecord,
    /// Any record of a study of version 1, or one past the first.
    ChainRecord,
    LaterChainRecord,
    /// A segment that has one before it.
    Entered,
    /// A segment past the first that has none before it.
    Source,
}

/// A damage to `D`: a file, a survey file, the words of a stored network, a case in words and
/// speeds, or the arrays of a study.
pub struct Damage<D: 'static> {
    pub name: &'static str,
    /// The number of the row that then applies.
    pub number: u64,
    pub part: Part,
    /// Does the damage at a curve or record (from 0); 0 for the file.
    pub apply: fn(&mut D, usize, &mut Random),
}

impl<D> Damage<D> {
    /// What a network needs so that the damage can be done to it.
    pub fn shape(&self) -> Shape {
        Shape {
            least_segments: self.part.least_segments(),
            binding: self.number == 8,
            roads: self.part.roads(),
        }
    }

    /// The curve or record to be damaged: both ends often.
    pub fn place(&self, network: &Network, random: &mut Random) -> usize {
        let last_curve = network.curves.len() as u64 - 1;
        let last_record = network.segments.len() as u64 - 1;
        let place = match self.part {
            Part::File | Part::FirstRecord => 0,
            Part::Curve => random.edge(0, last_curve),
            Part::Record | Part::JunctionRecord | Part::ChainRecord => random.edge(0, last_record),
            Part::LaterRecord | Part::LaterJunctionRecord | Part::LaterChainRecord => {
                random.edge(1, last_record)
            }
            Part::LastRecord => last_record,
            Part::FollowedRecord => random.edge(0, last_record - 1),
            Part::Entered => one_past_the_first(network, true, random),
            Part::Source => one_past_the_first(network, false, random),
        };
        place as usize
    }
}

impl Part {
    fn least_segments(self) -> u64 {
        match self {
            Part::File | Part::Curve | Part::Record | Part::FirstRecord => 1,
            Part::LastRecord | Part::JunctionRecord | Part::ChainRecord => 1,
            _ => 2,
        }
    }

    fn roads(self) -> Roads {
        match self {
            Part::FollowedRecord | Part::JunctionRecord | Part::LaterJunctionRecord => {
                Roads::Junctions
            }
            Part::ChainRecord | Part::LaterChainRecord => Roads::Chain,
            Part::Entered => Roads::Entered,
            Part::Source => Roads::Source,
            _ => Roads::Any,
        }
    }
}

/// A place past the first that has a segment before it, or none; both ends
/// often. There is one.
fn one_past_the_first(network: &Network, entered: bool, random: &mut Random) -> u64 {
    let later = 1..network.segments.len();
    let fitting: Vec<usize> = later
        .filter(|&place| network.entered(place) == entered)
        .collect();
    fitting[random.edge(0, fitting.len() as u64 - 1) as usize] as u64
}

/// Every damage to a file.
pub const FILE: [&[Damage<Draft>]; 5] = [
    head::DAMAGES,
    length::DAMAGES,
    curves::DAMAGES,
    records::DAMAGES,
    followers::DAMAGES,
];

/// Every damage to a survey file.
pub const SURVEY: [&[Damage<Vec<u8>>]; 1] = [survey::DAMAGES];

/// Every damage to the words of a stored network.
pub const STORED: [&[Damage<Stored>]; 2] = [stored::DAMAGES, chain::DAMAGES];

/// Every damage to the words between a study's network and its cases.
pub const MARKS: [&[Damage<Arrays>]; 1] = [marks::DAMAGES];

/// Every damage to a case in words and speeds.
pub const CASE: [&[Damage<CaseDraft>]; 4] = [
    figures::DAMAGES,
    signs::DAMAGES,
    settings::DAMAGES,
    speeds::DAMAGES,
];

/// A damage to a study or a case of it: the study is then not sound.
const fn unsound<D>(
    name: &'static str,
    part: Part,
    apply: fn(&mut D, usize, &mut Random),
) -> Damage<D> {
    Damage {
        name,
        number: 12,
        part,
        apply,
    }
}

type ToCase = fn(&mut CaseDraft, usize, &mut Random);

/// The damage whose turn it is.
pub fn in_turn<D>(tables: &[&'static [Damage<D>]], turn: u64) -> &'static Damage<D> {
    let count = tables.iter().map(|table| table.len() as u64).sum::<u64>();
    let mut all = tables.iter().copied().flatten();
    all.nth((turn % count) as usize).expect("below the count")
}

/// Any damage that brings this number at this part, or at any part.
pub fn any_of<D>(
    tables: &[&'static [Damage<D>]],
    number: u64,
    part: Option<Part>,
    random: &mut Random,
) -> &'static Damage<D> {
    let fits = |damage: &&Damage<D>| {
        damage.number == number && part.is_none_or(|part| damage.part == part)
    };
    let mut fitting = tables.iter().copied().flatten().filter(fits);
    let count = fitting.clone().count() as u64;
    let turn = random.below(count) as usize;
    fitting.nth(turn).expect("below the count")
}
