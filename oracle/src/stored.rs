//! The network as it is stored in lent words, a word a number.
//!
//! Words 0..7 are T, n, c, τ, ν, κ, δ and the version; entry j of curve k is
//! word 16 + 201k + j; field f of record i (from 0) is word 1624 + 16i + f, the
//! fields being L, H, curve, C, J, origin, X, Q, first and second follower,
//! share. A study of version 1 has its chain in the last three. Other words are
//! not read.

use crate::network::{Curve, Network, Segment, ENTRIES};
use crate::ranges::{judge_curve, judge_record, Ahead, Entries, Head, Record, CHAIN};

/// Words that the stored network may take.
pub(crate) const NETWORK_WORDS: usize = 2560;
const CURVES_AT: usize = 16;
const RECORDS_AT: usize = 1624;
const RECORD_WORDS: usize = 16;

/// The network in the words, or nothing where there are too few of them, the
/// version is not one of ours, one of rows 4, 6, 7, 27, 8 and 28 applies, or
/// version 1 is no chain.
pub(crate) fn read(words: &[u64]) -> Option<Network> {
    let head = judge(words.get(..NETWORK_WORDS)?)?;
    let curves = (0..head.curves as usize).map(|curve| typed_curve(words, curve));
    let segments = records(words, head.segments).map(|record| record.segment());
    Some(head.network(curves.collect(), segments.collect()))
}

/// Puts the network into its words, of which there are enough; all others up
/// to word 2559 become 0.
pub(crate) fn put(network: &Network, words: &mut [u64]) {
    words[..NETWORK_WORDS].fill(0);
    words[0] = u64::from(network.step);
    words[1] = network.segments.len() as u64;
    words[2] = network.curves.len() as u64;
    words[3] = u64::from(network.relaxation);
    words[4] = u64::from(network.anticipation);
    words[5] = u64::from(network.kappa);
    words[6] = u64::from(network.merging);
    words[7] = u64::from(network.version);
    let entries = network.curves.iter().flatten();
    for (word, &entry) in words[CURVES_AT..].iter_mut().zip(entries) {
        *word = u64::from(entry);
    }
    for (place, segment) in network.segments.iter().enumerate() {
        put_record(segment, &mut words[RECORDS_AT + RECORD_WORDS * place..]);
    }
}

/// Rows 3, 4, 6, 7, 27, 8 and 28 on the stored numbers: the head where none
/// applies.
fn judge(words: &[u64]) -> Option<Head> {
    let head = stored_head(words);
    if !head.known_version() || !head.in_range() {
        return None;
    }
    for curve in 0..head.curves as usize {
        judge_curve(stored_curve(words, curve).iter().copied()).ok()?;
    }
    let mut entries = Entries::default();
    for (place, record) in (0..).zip(records(words, head.segments)) {
        let first_entry = |curve| stored_curve(words, curve)[0];
        judge_record(&record, place, &head, first_entry).ok()?;
        if head.version == CHAIN && record.ahead != Ahead::chain(place, head.segments) {
            return None;
        }
        entries.take(place + 1, &record);
    }
    entries.judge().ok()?;
    Some(head)
}

fn stored_head(words: &[u64]) -> Head {
    Head {
        step: words[0],
        segments: words[1],
        curves: words[2],
        relaxation: words[3],
        anticipation: words[4],
        kappa: words[5],
        merging: words[6],
        version: words[7],
    }
}

fn stored_curve(words: &[u64], curve: usize) -> &[u64] {
    &words[CURVES_AT + ENTRIES * curve..][..ENTRIES]
}

/// The records of n segments, not yet judged.
fn records(words: &[u64], n: u64) -> impl Iterator<Item = Record> + '_ {
    let records = words[RECORDS_AT..].chunks_exact(RECORD_WORDS);
    records.take(n as usize).map(stored_record)
}

fn stored_record(fields: &[u64]) -> Record {
    Record {
        length: fields[0],
        lanes: fields[1],
        curve: fields[2],
        critical: fields[3],
        jam: fields[4],
        origin: fields[5],
        exit_share: fields[6],
        most_released: fields[7],
        ahead: Ahead {
            first: fields[8],
            second: fields[9],
            share: fields[10],
        },
    }
}

fn put_record(segment: &Segment, fields: &mut [u64]) {
    fields[0] = u64::from(segment.length);
    fields[1] = u64::from(segment.lanes);
    fields[2] = u64::from(segment.curve);
    fields[3] = u64::from(segment.critical);
    fields[4] = u64::from(segment.jam);
    fields[5] = u64::from(segment.origin);
    fields[6] = u64::from(segment.exit_share);
    fields[7] = u64::from(segment.most_released);
    fields[8] = u64::from(segment.followers.first);
    fields[9] = u64::from(segment.followers.second);
    fields[10] = u64::from(segment.followers.share);
}

/// A judged curve: every entry fits 32 bits.
fn typed_curve(words: &[u64], curve: usize) -> Curve {
    let entries = stored_curve(words, curve);
    std::array::from_fn(|entry| entries[entry] as u32)
}
