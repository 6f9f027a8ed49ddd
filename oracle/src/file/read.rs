//! The file's bytes cut into fields, and its rows judged in order.

use super::{record_bytes, CURVE_BYTES, HEAD_BYTES, MARK_BYTES, RECORD_BYTES};
use crate::network::{Curve, Network};
use crate::ranges::{judge_curve, judge_record, Ahead, Entries, Head, Record, CHAIN};
use crate::refusal::{HEAD_FIELD, LENGTH, MARK, NO_HEAD, RECORD_FIELD, VERSION};

/// A file whose head and length are in order, cut into its parts.
pub(super) struct Parts<'a> {
    pub head: Head,
    curves: &'a [[u8; CURVE_BYTES]],
    records: &'a [u8],
}

/// All rows of the file: head and length, curves in order, record by record,
/// and what enters each segment.
pub(super) fn judge(file: &[u8]) -> Result<Parts<'_>, u8> {
    let parts = cut(file)?;
    for curve in parts.curves {
        judge_curve(entries(curve).map(u64::from))?;
    }
    let mut entries = Entries::default();
    for (place, (bytes, more)) in (0..).zip(parts.records()) {
        judge_padding(bytes)?;
        let record = read_record(bytes, more, place, &parts.head);
        judge_record(&record, place, &parts.head, |curve| {
            u64::from(number32(&parts.curves[curve], 0))
        })?;
        entries.take(place + 1, &record);
    }
    entries.judge()?;
    Ok(parts)
}

impl Parts<'_> {
    /// The typed network.
    pub fn network(&self) -> Network {
        let curves = self.curves.iter().map(typed_curve).collect();
        let record = |(place, (bytes, more))| read_record(bytes, more, place, &self.head);
        let records = (0..).zip(self.records()).map(record);
        let segments = records.map(|record| record.segment()).collect();
        self.head.network(curves, segments)
    }

    /// Of each record the 16 bytes that both versions have, and the others.
    fn records(&self) -> impl Iterator<Item = (&[u8; RECORD_BYTES], &[u8])> {
        let records = self.records.chunks_exact(record_bytes(self.head.version));
        records.filter_map(|record| record.split_first_chunk())
    }
}

/// Rows 1 to 5.
fn cut(file: &[u8]) -> Result<Parts<'_>, u8> {
    let (head, body) = file.split_first_chunk::<HEAD_BYTES>().ok_or(NO_HEAD)?;
    if !head.starts_with(MARK_BYTES) {
        return Err(MARK);
    }
    let head = read_head(head)?;
    let curve_bytes = CURVE_BYTES * head.curves as usize;
    if body.len() != curve_bytes + record_bytes(head.version) * head.segments as usize {
        return Err(LENGTH);
    }
    let (curves, records) = body.split_at(curve_bytes);
    Ok(Parts {
        head,
        curves: curves.as_chunks().0,
        records,
    })
}

/// The head's fields, or row 3, then row 4.
fn read_head(bytes: &[u8; HEAD_BYTES]) -> Result<Head, u8> {
    let head = Head {
        version: u64::from(number16(bytes, 3)),
        step: u64::from(bytes[5]),
        segments: u64::from(bytes[6]),
        curves: u64::from(bytes[7]),
        relaxation: u64::from(bytes[8]),
        anticipation: u64::from(bytes[9]),
        kappa: u64::from(bytes[10]),
        merging: u64::from(number16(bytes, 12)),
    };
    if !head.known_version() {
        return Err(VERSION);
    }
    let padding_zero = bytes[11] == 0 && bytes[14] == 0 && bytes[15] == 0;
    if padding_zero && head.in_range() {
        Ok(head)
    } else {
        Err(HEAD_FIELD)
    }
}

/// The fields of record `place` (from 0), not yet judged.
fn read_record(bytes: &[u8; RECORD_BYTES], more: &[u8], place: u64, head: &Head) -> Record {
    Record {
        length: u64::from(number16(bytes, 0)),
        lanes: u64::from(bytes[2]),
        curve: u64::from(bytes[3]),
        critical: u64::from(bytes[4]),
        jam: u64::from(bytes[5]),
        origin: u64::from(bytes[6]),
        exit_share: u64::from(number16(bytes, 8)),
        most_released: u64::from(number32(bytes, 10)),
        ahead: match head.version {
            CHAIN => Ahead::chain(place, head.segments),
            _ => read_ahead(more),
        },
    }
}

/// Followers and share of a record of version 2.
fn read_ahead(bytes: &[u8]) -> Ahead {
    Ahead {
        first: u64::from(bytes[0]),
        second: u64::from(bytes[1]),
        share: u64::from(number16(bytes, 2)),
    }
}

/// Row 7 for the record's bytes that are zero.
fn judge_padding(bytes: &[u8; RECORD_BYTES]) -> Result<(), u8> {
    match [bytes[7], bytes[14], bytes[15]] {
        [0, 0, 0] => Ok(()),
        _ => Err(RECORD_FIELD),
    }
}

fn typed_curve(bytes: &[u8; CURVE_BYTES]) -> Curve {
    std::array::from_fn(|entry| number32(bytes, 4 * entry))
}

/// The entries e0..e200 of a curve, in m/h.
fn entries(bytes: &[u8; CURVE_BYTES]) -> impl Iterator<Item = u32> + Clone + '_ {
    bytes
        .as_chunks()
        .0
        .iter()
        .map(|&entry| u32::from_be_bytes(entry))
}

/// The big-endian number in the two bytes from `at`.
fn number16(bytes: &[u8], at: usize) -> u16 {
    u16::from_be_bytes([bytes[at], bytes[at + 1]])
}

/// The big-endian number in the four bytes from `at`.
fn number32(bytes: &[u8], at: usize) -> u32 {
    u32::from_be_bytes([bytes[at], bytes[at + 1], bytes[at + 2], bytes[at + 3]])
}
