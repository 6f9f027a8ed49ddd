//! One step of a study that was laid out in lent arrays.

use crate::laid::LIVE;
use crate::lent::Lent;
use crate::networks;
use crate::step::three_segment_start;
use crate::study::ROOM;
use oracle::book::Call;
use oracle::case::Case;
use oracle::network::Network;
use oracle::refusal::NOT_SOUND;
use oracle::step;
use oracle::study::{self, Study};

/// The sixteen words of segment 2 of three.
const STATE: usize = LIVE + 16;
/// The eight words after three states.
const TOTALS: usize = LIVE + 16 * 3;

/// Three segments; the second has a sign and ALINEA.
fn three() -> (Network, Case) {
    (networks::three_segments(), three_segment_start())
}

fn laid() -> Lent {
    let (network, case) = three();
    Lent::laid(&network, 0, &case)
}

#[test]
fn both_steps_of_the_tallies() {
    let mut lent = Lent::tallies();
    let (mut words, mut bits) = lent.bits();
    assert_eq!(lent.step(&[4_000]), 0);
    words[2560] = 1;
    words[2576..2578].copy_from_slice(&[16_000, 3_000]);
    words[2586..2588].copy_from_slice(&[10_000, 6_000]);
    words[2592..2596].copy_from_slice(&[1, 4_000, 10_000, 250_000]);
    bits[0] = 95_000_f64.to_bits();
    assert_eq!(lent.bits(), (words.clone(), bits.clone()));
    assert_eq!(lent.step(&[0]), 0);
    words[2560] = 2;
    words[2576..2578].copy_from_slice(&[10_556, 0]);
    words[2586..2588].copy_from_slice(&[8_444, 3_000]);
    words[2590] = 800_000;
    words[2592..2596].copy_from_slice(&[2, 4_000, 18_444, 440_000]);
    bits[0] = 97_500_f64.to_bits();
    assert_eq!(lent.bits(), (words, bits));
}

/// The arrays follow the typed case for forty steps; free words, empty slots
/// and all that is past the study stay.
#[test]
fn arrays_follow_the_typed_case() {
    let (network, mut case) = three();
    let mut lent = laid();
    for turn in 0..40 {
        let arrivals = [9_000 + turn, 2_500 * (turn % 3), 0];
        assert_eq!(lent.step(&arrivals), 0);
        step::step(&network, &mut case, &arrivals);
        let runs = u64::from(turn) + 1;
        assert_eq!(lent.bits(), Lent::laid(&network, runs, &case).bits());
        let expected = Study {
            network: network.clone(),
            runs,
            live: case.clone(),
            slots: Default::default(),
        };
        assert_eq!(study::read(&lent.words, &lent.speeds), Ok(expected));
    }
}

/// The number of a step with one word changed, which changes nothing else.
fn with_word(word: usize, value: u64) -> u8 {
    let mut lent = laid();
    lent.words[word] = value;
    let before = lent.bits();
    let number = lent.step(&[9_000, 2_500, 0]);
    assert!(number == 0 || lent.bits() == before);
    number
}

fn assert_ends(word: usize, accepted: &[u64], refused: &[u64]) {
    for &value in accepted {
        assert_eq!(with_word(word, value), 0, "word {word} is {value}");
    }
    for &value in refused {
        let number = with_word(word, value);
        assert_eq!(number, NOT_SOUND, "word {word} is {value}");
    }
}

#[test]
fn twelve_for_words_of_a_segment_state() {
    let most = 1_000_000_000_000;
    let others = 45_000 + 61_007 + 70_011 + 12_001;
    let room = most - others;
    assert_ends(
        STATE,
        &[room + 61_007],
        &[room + 61_008, most + 1, u64::MAX],
    );
    assert_ends(STATE + 1, &[room + 9_001], &[room + 9_002, u64::MAX]);
    assert_ends(STATE + 2, &[20, 200], &[0, 1, 19, 201, 70 + (1 << 32)]);
    assert_ends(STATE + 3, &[0, 1_000], &[1_001, u64::MAX]);
    assert_ends(STATE + 4, &[], &[0, 1, 3, 2 + (1 << 32), u64::MAX]);
    assert_ends(STATE + 5, &[400, 5_500], &[399, 5_501]);
    assert_ends(STATE + 6, &[1, 199], &[0, 200]);
    assert_ends(STATE + 7, &[1, 60_000], &[0, 60_001]);
    assert_ends(STATE + 8, &[0, 5_500], &[5_501]);
    assert_ends(STATE + 9, &[1, 60], &[0, 61]);
    assert_ends(STATE + 10, &[most], &[most + 1]);
    assert_ends(STATE + 11, &[most], &[most + 1]);
    assert_ends(STATE + 12, &[0, 60 * most], &[60 * most + 1, u64::MAX]);
    assert_ends(STATE + 13, &[0, 60], &[61, 1 << 32, u64::MAX]);
    let end = 3_600 * 703;
    assert_ends(STATE + 14, &[0, end - 1], &[end, u64::MAX]);
    assert_ends(STATE + 15, &[0, u64::MAX], &[]);
}

/// Segment 1 is open with a dark sign, segment 3 has no origin besides.
#[test]
fn twelve_for_what_an_open_segment_keeps() {
    assert_ends(STATE - 16 + 3, &[], &[1, 500]);
    assert_ends(STATE - 16 + 4, &[], &[1, 2, 3]);
    assert_ends(STATE - 16 + 5, &[], &[0, 15_999, 16_001]);
    for word in [6, 7, 8, 9, 12, 13] {
        assert_ends(STATE - 16 + word, &[0], &[1, 1 << 40]);
        assert_ends(STATE + 16 + word, &[0], &[1, 1 << 40]);
    }
    assert_ends(STATE + 16 + 1, &[1], &[]);
    assert_ends(STATE + 16 + 4, &[], &[1]);
    assert_ends(STATE + 16 + 5, &[], &[1]);
}

#[test]
fn totals_and_the_number_of_steps() {
    let most = 1_000_000_000_000;
    assert_ends(TOTALS, &[0, 19_999], &[20_001, u64::MAX]);
    assert_eq!(with_word(TOTALS, 20_000), 16);
    assert_ends(TOTALS + 1, &[most], &[most + 1]);
    assert_ends(TOTALS + 2, &[most], &[most + 1]);
    assert_ends(TOTALS + 3, &[1_000_000 * most], &[1_000_000 * most + 1]);
    assert_ends(TOTALS + 4, &[0, u64::MAX], &[]);
}

/// A refused step leaves a NaN's payload too.
#[test]
fn twelve_for_speeds() {
    let with = |bits: u64| {
        let mut lent = laid();
        lent.speeds[2] = f64::from_bits(bits);
        let before = lent.bits();
        let number = lent.step(&[0; 3]);
        assert!(number == 0 || lent.bits() == before);
        number
    };
    let of = |speed: f64| with(speed.to_bits());
    assert_eq!((of(1_000.0), of(102_000.0)), (0, 0));
    let low = [1_000_f64.next_down(), 0.0, -0.0, -5_000.0];
    let high = [102_000_f64.next_up(), f64::MAX, f64::INFINITY];
    let none = [f64::NAN, -f64::NAN, f64::NEG_INFINITY, f64::MIN_POSITIVE];
    for speed in low.into_iter().chain(high).chain(none) {
        assert_eq!(of(speed), NOT_SOUND, "{speed}");
    }
    for bits in [0x7ff0_0000_0000_0001, 0xfff8_0000_1234_5678] {
        assert_eq!(with(bits), NOT_SOUND, "{bits:#x}");
    }
}

#[test]
fn lengths_and_the_order_of_the_rows() {
    let sound = laid();
    let with = |words: usize, speeds: usize, arrivals: &[u32]| {
        let mut words = sound.words[..words].to_vec();
        let mut speeds = sound.speeds[..speeds].to_vec();
        let call = Call::Step { arrivals };
        study::call(&mut words, &mut speeds, &call)
            .err()
            .unwrap_or(0)
    };
    let (words, speeds) = (ROOM.words, ROOM.speeds);
    let bad = [0, 0, 1, 0];
    assert_eq!(with(words, speeds, &[0; 3]), 0);
    assert_eq!(with(words - 1, speeds, &bad), 12);
    assert_eq!(with(2_559, speeds, &bad), 12);
    assert_eq!(with(0, speeds, &bad), 12);
    assert_eq!(with(words, speeds - 1, &bad), 12);
    assert_eq!(with(words, speeds, &bad), 13);
    assert_eq!(with(words, speeds, &bad[..2]), 13);
    assert_eq!(with(words, speeds, &bad[..3]), 15);
    assert_eq!(with(words, speeds, &[1_000_001, 0, 0]), 15);
    let mut last = laid();
    last.words[TOTALS] = 20_000;
    assert_eq!(last.step(&bad), 13);
    assert_eq!(last.step(&bad[..3]), 15);
    assert_eq!(last.step(&[0; 3]), 16);
}
