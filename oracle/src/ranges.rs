//! The range of every field, for a file and for stored words alike.
//!
//! Fields are 64-bit numbers here: a stored word may be any number,
//! and nothing may be cut off before it is judged.

mod ahead;

use crate::network::{Curve, Network, Segment, ENTRIES};
use crate::refusal::{CURVE_ENTRY, FOLLOWER, RECORD_FIELD, TOO_SHORT_A_SEGMENT};
pub(crate) use ahead::{Ahead, Entries};

/// The version in which each segment is followed by the next.
pub(crate) const CHAIN: u64 = 1;
/// The version whose records say which segments follow.
pub(crate) const JUNCTIONS: u64 = 2;
/// Most segments of a network.
const MOST_SEGMENTS: u64 = 40;

/// The head's fields, not yet judged.
pub(crate) struct Head {
    pub version: u64,
    pub step: u64,
    pub segments: u64,
    pub curves: u64,
    pub relaxation: u64,
    pub anticipation: u64,
    pub kappa: u64,
    pub merging: u64,
}

impl Head {
    /// Row 3.
    pub fn known_version(&self) -> bool {
        [CHAIN, JUNCTIONS].contains(&self.version)
    }

    /// Row 4.
    pub fn in_range(&self) -> bool {
        (1..=60).contains(&self.step)
            && (1..=MOST_SEGMENTS).contains(&self.segments)
            && (1..=8).contains(&self.curves)
            && (1..=120).contains(&self.relaxation)
            && self.anticipation <= 200
            && (1..=200).contains(&self.kappa)
            && self.merging <= 1000
    }

    /// The typed network of a head in range.
    pub fn network(&self, curves: Vec<Curve>, segments: Vec<Segment>) -> Network {
        Network {
            version: self.version as u16,
            step: self.step as u8,
            relaxation: self.relaxation as u8,
            anticipation: self.anticipation as u8,
            kappa: self.kappa as u8,
            merging: self.merging as u16,
            curves,
            segments,
        }
    }
}

/// One record's fields, not yet judged.
pub(crate) struct Record {
    pub length: u64,
    pub lanes: u64,
    pub curve: u64,
    pub critical: u64,
    pub jam: u64,
    pub origin: u64,
    pub exit_share: u64,
    pub most_released: u64,
    pub ahead: Ahead,
}

impl Record {
    /// Whether every field of record `place` (from 0) is in range.
    pub fn in_range(&self, place: u64, head: &Head) -> bool {
        let first = place == 0;
        let end = self.ahead.first == 0 && self.ahead.second == 0;
        (100..=2000).contains(&self.length)
            && (1..=8).contains(&self.lanes)
            && self.curve < head.curves
            && (2..=200).contains(&self.jam)
            && (1..self.jam).contains(&self.critical)
            && self.origin <= 1
            && (!first || self.origin == 1)
            && self.exit_share <= 1000
            && (!end || self.exit_share == 0)
            && self.release_in_range()
            && self.ahead.share_in_range()
    }

    /// Q is 1..300,000 mv with an origin, else 0.
    fn release_in_range(&self) -> bool {
        match self.origin {
            0 => self.most_released == 0,
            _ => (1..=300_000).contains(&self.most_released),
        }
    }

    /// The typed segment of a record in range.
    pub fn segment(&self) -> Segment {
        Segment {
            length: self.length as u16,
            lanes: self.lanes as u8,
            curve: self.curve as u8,
            critical: self.critical as u8,
            jam: self.jam as u8,
            origin: self.origin == 1,
            exit_share: self.exit_share as u16,
            most_released: self.most_released as u32,
            followers: self.ahead.followers(),
        }
    }
}

/// Row 6: the first entry is a speed of 1,000..200,000 m/h and no entry is
/// above the one before.
pub(crate) fn judge_curve<E>(entries: E) -> Result<(), u8>
where
    E: Iterator<Item = u64> + Clone,
{
    debug_assert_eq!(entries.clone().count(), ENTRIES);
    let first = entries.clone().next();
    let in_range = first.is_some_and(|speed| (1_000..=200_000).contains(&speed));
    if in_range && entries.is_sorted_by(|before, entry| before >= entry) {
        Ok(())
    } else {
        Err(CURVE_ENTRY)
    }
}

/// Rows 7, 27 and 8 for record `place` (from 0). `first_entry` gives F of a
/// curve, and is asked only for a curve that exists.
pub(crate) fn judge_record(
    record: &Record,
    place: u64,
    head: &Head,
    first_entry: impl Fn(usize) -> u64,
) -> Result<(), u8> {
    if !record.in_range(place, head) {
        return Err(RECORD_FIELD);
    }
    if !record.ahead.fits(place, head.segments) {
        return Err(FOLLOWER);
    }
    let free_speed = first_entry(record.curve as usize);
    if free_speed * head.step > 3600 * record.length {
        return Err(TOO_SHORT_A_SEGMENT);
    }
    Ok(())
}
