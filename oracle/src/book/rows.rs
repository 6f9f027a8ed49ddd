//! The rows of the table for calls on a study, in their order.

use super::{Lengths, Start, SLOTS};
use crate::case::{Alinea, Setting};
use crate::network::{Network, Origin, Segment};
use crate::refusal::{
    ARRAYS, ARRIVAL, EMPTY, FILLED, LIST_LENGTH, NO_MORE_STEPS, NO_RAMP, NO_SEGMENT, NO_SLOT,
    SETTING, SIGN, START_FIGURE,
};

/// Most mv in a queue at Start, and most mv that arrive in a step.
const MOST_WAITING: u64 = 1_000_000;
/// Most steps on a line.
pub const LINE_STEPS: u64 = 20_000;
/// Most accepted steps since Start.
pub const RUNS: u64 = 1_000_000;

/// What is held in each slot, nothing where it is empty.
type Slots<Held> = [Option<Held>; SLOTS];

/// Rows 11, 13 and 14.
pub fn judge_start(network: &Network, lengths: Lengths, start: &Start) -> Result<(), u8> {
    let n = network.segments.len();
    let words = 2560 + 7 * (16 * n + 8) + 16;
    refuse_if(lengths.words < words || lengths.speeds < 7 * n, ARRAYS)?;
    let lists = [start.counts, start.speeds, start.queues];
    refuse_if(lists.iter().any(|list| list.len() != n), LIST_LENGTH)?;
    for (place, segment) in network.segments.iter().enumerate() {
        let full = u64::from(segment.jam) * segment.lane_metres();
        let free_speed = u64::from(network.free_speed(segment));
        let count_fits = start.counts[place] <= full;
        let speed_fits = (1_000..=free_speed).contains(&start.speeds[place]);
        let queue_fits = may_wait(segment, start.queues[place]);
        refuse_if(!(count_fits && speed_fits && queue_fits), START_FIGURE)?;
    }
    Ok(())
}

/// Rows 13, 15 and 16.
pub fn judge_step(network: &Network, arrivals: &[u32], steps: u64, runs: u64) -> Result<(), u8> {
    refuse_if(arrivals.len() != network.segments.len(), LIST_LENGTH)?;
    for (segment, &arrival) in network.segments.iter().zip(arrivals) {
        refuse_if(!may_wait(segment, u64::from(arrival)), ARRIVAL)?;
    }
    refuse_if(steps >= LINE_STEPS || runs >= RUNS, NO_MORE_STEPS)
}

/// Row 17. Answers the segment's place, from 0.
pub fn judge_segment(network: &Network, segment: u64) -> Result<usize, u8> {
    let n = network.segments.len() as u64;
    refuse_if(!(1..=n).contains(&segment), NO_SEGMENT)?;
    Ok(segment as usize - 1)
}

/// Row 18. A dark sign's compliance is judged too.
pub fn judge_sign(limit: u64, compliance: i64) -> Result<(), u8> {
    let limit_fits = limit == 0 || (20..=200).contains(&limit);
    let compliance_fits = (-500..=500).contains(&compliance);
    refuse_if(!(limit_fits && compliance_fits), SIGN)
}

/// Row 19.
pub fn judge_ramp(network: &Network, place: usize) -> Result<(), u8> {
    refuse_if(network.origin(place) != Origin::Ramp, NO_RAMP)
}

/// Rows 19 and 20.
pub fn judge_meter(network: &Network, place: usize, setting: Setting) -> Result<(), u8> {
    judge_ramp(network, place)?;
    let most = u64::from(network.segments[place].most_released);
    let fits = match setting {
        Setting::Open => true,
        Setting::Fixed(rate) => rate <= most,
        Setting::Alinea(alinea) => alinea_fits(&alinea, most),
    };
    refuse_if(!fits, SETTING)
}

/// Rows 21 and 22. Answers the slot's place, from 0.
pub fn judge_hold<Held>(slots: &Slots<Held>, slot: u64) -> Result<usize, u8> {
    let place = judge_slot(slot)?;
    refuse_if(slots[place].is_some(), FILLED)?;
    Ok(place)
}

/// Rows 21 and 23. Answers the slot's place, from 0, and what it holds.
pub fn judge_filled<Held>(slots: &Slots<Held>, slot: u64) -> Result<(usize, &Held), u8> {
    let place = judge_slot(slot)?;
    let held = slots[place].as_ref().ok_or(EMPTY)?;
    Ok((place, held))
}

fn judge_slot(slot: u64) -> Result<usize, u8> {
    refuse_if(!(1..=SLOTS as u64).contains(&slot), NO_SLOT)?;
    Ok(slot as usize - 1)
}

/// ALINEA's settings at a ramp that releases at most `most` mv per step.
fn alinea_fits(alinea: &Alinea, most: u64) -> bool {
    (1..=199).contains(&alinea.target)
        && (1..=60_000).contains(&alinea.gain)
        && alinea.least <= most
        && (1..=60).contains(&alinea.interval)
}

/// Whether so many mv may wait or arrive at the segment.
fn may_wait(segment: &Segment, amount: u64) -> bool {
    amount == 0 || (segment.origin && amount <= MOST_WAITING)
}

fn refuse_if(applies: bool, number: u8) -> Result<(), u8> {
    match applies {
        true => Err(number),
        false => Ok(()),
    }
}
