//! One damage, or two where the order of the rows decides. The damage itself
//! says which number it brings.

use super::{expect_number, Difference};
use crate::damages::{any_of, in_turn, Damage, Part, FILE};
use crate::draft::Draft;
use crate::networks::{network, Roads, Shape};
use crate::random::Random;

pub fn one(random: &mut Random, index: u64) -> Result<(), Difference> {
    let round = index / 4;
    match index % 4 {
        0 => two_rows(random, round),
        1 => two_records(random, round),
        half => single(random, 2 * round + half - 2),
    }
}

/// Every damage in turn, alone.
fn single(random: &mut Random, turn: u64) -> Result<(), Difference> {
    let damage = in_turn(&FILE, turn);
    let mut draft = Draft::new(network(random, damage.shape()));
    apply(damage, &mut draft, random);
    expect_number(&draft.bytes, damage.number, damage.name)
}

/// The rows in their order; 7, 27 and 8 go record by record.
const ROWS: [u64; 9] = [2, 3, 4, 5, 6, 7, 27, 8, 28];
/// Rows up to the curves.
const BEFORE_RECORDS: u64 = 5;
/// Pairs of rows that meet in the records.
const PAIRS: [[u64; 2]; 6] = [[7, 8], [7, 27], [27, 8], [7, 28], [27, 28], [8, 28]];

/// Two damages of different rows: the earlier row is the answer. Those of
/// records together are left to `two_records`.
fn two_rows(random: &mut Random, turn: u64) -> Result<(), Difference> {
    let place = turn % BEFORE_RECORDS;
    let row = random.between(place + 1, ROWS.len() as u64 - 1);
    let earlier = any_of(&FILE, ROWS[place as usize], None, random);
    let later = any_of(&FILE, ROWS[row as usize], None, random);
    let mut draft = Draft::new(network(random, earlier.shape().with(later.shape())));
    apply(later, &mut draft, random);
    apply(earlier, &mut draft, random);
    let what = format!("{}, and later {}", earlier.name, later.name);
    expect_number(&draft.bytes, earlier.number, &what)
}

/// Rows 7, 27 and 8 go record by record: the earlier record is the answer, and
/// the earlier row within one record. 28 comes after the last record, wherever
/// it is.
fn two_records(random: &mut Random, turn: u64) -> Result<(), Difference> {
    let [one, other] = PAIRS[(turn % 6) as usize];
    let shape = Shape {
        least_segments: 3,
        binding: true,
        roads: match [one, other] {
            [7, 8] => Roads::Any,
            _ => Roads::Junctions,
        },
    };
    let mut draft = Draft::new(network(random, shape));
    let last = draft.network.segments.len() as u64 - 1;
    let low = random.edge(u64::from(other == 28), last - 1) as usize;
    let high = random.edge(low as u64 + 1, last) as usize;
    let (at_one, at_other) = match turn / 6 % 3 {
        0 => (low, high),
        1 => (high, low),
        _ => (low, low),
    };
    let expected = match other != 28 && at_other < at_one {
        true => other,
        false => one,
    };
    let named = [
        spoil_record(&mut draft, other, at_other, random),
        spoil_record(&mut draft, one, at_one, random),
    ];
    let what = format!(
        "{} at record {at_other}, {} at {at_one}",
        named[0], named[1]
    );
    expect_number(&draft.bytes, expected, &what)
}

/// A damage that brings this number at a record (from 0), which for 28 is not
/// the first.
fn spoil_record(draft: &mut Draft, row: u64, record: usize, random: &mut Random) -> &'static str {
    let part = match row {
        7 if draft.network.version == 2 && random.once_in(2) => Part::JunctionRecord,
        7 => Part::Record,
        27 => Part::JunctionRecord,
        28 => Part::LaterJunctionRecord,
        _ => {
            draft.shorten(record);
            return "too short";
        }
    };
    let damage = any_of(&FILE, row, Some(part), random);
    (damage.apply)(draft, record, random);
    damage.name
}

fn apply(damage: &Damage<Draft>, draft: &mut Draft, random: &mut Random) {
    let place = damage.place(&draft.network, random);
    (damage.apply)(draft, place, random);
}
