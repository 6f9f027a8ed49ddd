//! Row 12: settings and rates that no call permits.

use super::ramps::{close, leave_open, most_released, put_alinea, set, spoil, spoil_open_rate};
use super::{unsound, Damage, Part, ToCase};
use crate::cases::{alinea, fixed, MOST_COLLECTED, MOST_SUM};
use crate::random::Random;
use crate::stored_case::{state_word, CaseDraft};
use crate::stored_case::{CODE, GAIN, INTERVAL, LEAST, RATE, SUM, SUM_STEPS, TARGET};

/// At segment 1.
const fn first(name: &'static str, apply: ToCase) -> Damage<CaseDraft> {
    unsound(name, Part::FirstRecord, apply)
}

/// At a segment that has one before it.
const fn later(name: &'static str, apply: ToCase) -> Damage<CaseDraft> {
    unsound(name, Part::Entered, apply)
}

/// At a mainstream origin past segment 1.
const fn source(name: &'static str, apply: ToCase) -> Damage<CaseDraft> {
    unsound(name, Part::Source, apply)
}

pub const DAMAGES: &[Damage<CaseDraft>] = &[
    unsound("setting code", Part::Record, |draft, place, random| {
        spoil(draft, place, CODE, 0, 2, random)
    }),
    first("fixed at segment 1", |draft, place, _| {
        draft.words[state_word(place, CODE)] = 1
    }),
    first("ALINEA at segment 1", put_alinea),
    first("R of segment 1", spoil_open_rate),
    first("target of segment 1", unused_word::<TARGET>),
    first("gain of segment 1", unused_word::<GAIN>),
    first("least of segment 1", unused_word::<LEAST>),
    first("z of segment 1", unused_word::<INTERVAL>),
    first("S of segment 1", unused_word::<SUM>),
    first("m of segment 1", unused_word::<SUM_STEPS>),
    source("fixed at a mainstream origin", |draft, place, _| {
        draft.words[state_word(place, CODE)] = 1
    }),
    source("ALINEA at a mainstream origin", put_alinea),
    source("R of a mainstream origin", spoil_open_rate),
    source("target of a mainstream origin", unused_word::<TARGET>),
    source("gain of a mainstream origin", unused_word::<GAIN>),
    source("least of a mainstream origin", unused_word::<LEAST>),
    source("z of a mainstream origin", unused_word::<INTERVAL>),
    source("S of a mainstream origin", unused_word::<SUM>),
    source("m of a mainstream origin", unused_word::<SUM_STEPS>),
    later("fixed without an origin", |draft, place, _| {
        close(draft, place);
        draft.words[state_word(place, CODE)] = 1
    }),
    later("ALINEA without an origin", |draft, place, random| {
        close(draft, place);
        put_alinea(draft, place, random)
    }),
    later("R without an origin", |draft, place, random| {
        close(draft, place);
        spoil_open_rate(draft, place, random)
    }),
    later("target without an origin", closed_word::<TARGET>),
    later("gain without an origin", closed_word::<GAIN>),
    later("least without an origin", closed_word::<LEAST>),
    later("z without an origin", closed_word::<INTERVAL>),
    later("S without an origin", closed_word::<SUM>),
    later("m without an origin", closed_word::<SUM_STEPS>),
    later("R of an open ramp", |draft, place, random| {
        set(draft, place, random, leave_open);
        spoil_open_rate(draft, place, random)
    }),
    later("target of an open ramp", open_word::<TARGET>),
    later("gain of an open ramp", open_word::<GAIN>),
    later("least of an open ramp", open_word::<LEAST>),
    later("z of an open ramp", open_word::<INTERVAL>),
    later("S of an open ramp", open_word::<SUM>),
    later("m of an open ramp", open_word::<SUM_STEPS>),
    later("R of a fixed ramp", |draft, place, random| {
        set(draft, place, random, fixed);
        let most = most_released(draft, place);
        spoil(draft, place, RATE, 0, most, random)
    }),
    later("target of a fixed ramp", fixed_word::<TARGET>),
    later("gain of a fixed ramp", fixed_word::<GAIN>),
    later("least of a fixed ramp", fixed_word::<LEAST>),
    later("z of a fixed ramp", fixed_word::<INTERVAL>),
    later("S of a fixed ramp", fixed_word::<SUM>),
    later("m of a fixed ramp", fixed_word::<SUM_STEPS>),
    later("target", alinea_word::<TARGET, 1, 199>),
    later("gain", alinea_word::<GAIN, 1, 60_000>),
    later("least above Q", alinea_above_most::<LEAST>),
    later("z", alinea_word::<INTERVAL, 1, 60>),
    later("S", alinea_word::<SUM, 0, MOST_SUM>),
    later("m", alinea_word::<SUM_STEPS, 0, MOST_COLLECTED>),
    later("R above Q", alinea_above_most::<RATE>),
    later("R below the least", |draft, place, random| {
        set(draft, place, random, alinea);
        let least = random.edge(1, most_released(draft, place));
        draft.words[state_word(place, LEAST)] = least;
        draft.words[state_word(place, RATE)] = random.edge(0, least - 1)
    }),
];

/// A word that the setting does not use is not 0.
fn unused_word<const WORD: usize>(draft: &mut CaseDraft, place: usize, random: &mut Random) {
    spoil(draft, place, WORD, 0, 0, random);
}

fn closed_word<const WORD: usize>(draft: &mut CaseDraft, place: usize, random: &mut Random) {
    close(draft, place);
    unused_word::<WORD>(draft, place, random);
}

fn open_word<const WORD: usize>(draft: &mut CaseDraft, place: usize, random: &mut Random) {
    set(draft, place, random, leave_open);
    unused_word::<WORD>(draft, place, random);
}

fn fixed_word<const WORD: usize>(draft: &mut CaseDraft, place: usize, random: &mut Random) {
    set(draft, place, random, fixed);
    unused_word::<WORD>(draft, place, random);
}

/// A word of ALINEA outside LOW..HIGH.
fn alinea_word<const WORD: usize, const LOW: u64, const HIGH: u64>(
    draft: &mut CaseDraft,
    place: usize,
    random: &mut Random,
) {
    set(draft, place, random, alinea);
    spoil(draft, place, WORD, LOW, HIGH, random);
}

/// A word of ALINEA above the segment's Q.
fn alinea_above_most<const WORD: usize>(draft: &mut CaseDraft, place: usize, random: &mut Random) {
    set(draft, place, random, alinea);
    let most = most_released(draft, place);
    spoil(draft, place, WORD, 0, most, random);
}
