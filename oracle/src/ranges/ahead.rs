//! Which segments follow which: followers and share of a record, and whether
//! something enters each segment.

use super::Record;
use crate::network::Followers;
use crate::refusal::NOTHING_ENTERS;

/// A record's followers and share, not yet judged.
#[derive(Clone, Copy, PartialEq, Eq)]
pub struct Ahead {
    pub first: u64,
    pub second: u64,
    pub share: u64,
}

impl Ahead {
    /// What version 1 means at record `place` (from 0) of n.
    pub fn chain(place: u64, n: u64) -> Ahead {
        Ahead {
            first: if place + 1 == n { 0 } else { place + 2 },
            second: 0,
            share: 1000,
        }
    }

    /// Row 7 for the share.
    pub fn share_in_range(&self) -> bool {
        match self.second {
            0 => self.share == 1000,
            _ => self.share <= 1000,
        }
    }

    /// No row 27 for record `place` (from 0) of n.
    pub fn fits(&self, place: u64, n: u64) -> bool {
        let fits = |follower| follower == 0 || (place + 2..=n).contains(&follower);
        match (self.first, self.second) {
            (first, 0) => fits(first),
            (0, _) => false,
            (first, second) => fits(first) && fits(second) && first != second,
        }
    }

    /// The same of a record in range, typed.
    pub fn followers(&self) -> Followers {
        Followers {
            first: self.first as u8,
            second: self.second as u8,
            share: self.share as u16,
        }
    }
}

/// Which segments have one before them, as record after record is judged.
#[derive(Default)]
pub struct Entries {
    /// Bit i: segment i is named as a follower. Bit 0 stands for none.
    named: u64,
    /// Some segment has neither a segment before it nor an origin.
    lacking: bool,
}

impl Entries {
    /// Takes a judged record, the first being that of segment 1. By row 27
    /// whoever names a segment has a lower number.
    pub fn take(&mut self, number: u64, record: &Record) {
        let entered = self.named >> number & 1 == 1;
        self.lacking |= !entered && record.origin == 0;
        self.named |= 1 << record.ahead.first | 1 << record.ahead.second;
    }

    /// Row 28, after the last record.
    pub fn judge(self) -> Result<(), u8> {
        match self.lacking {
            true => Err(NOTHING_ENTERS),
            false => Ok(()),
        }
    }
}
