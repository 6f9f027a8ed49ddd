//! A list on three segments that was worked out apart from this code: every
//! figure and every bit of v after each of its five steps, in the book and in
//! lent arrays.

use crate::lent::Lent;
use crate::study::{ask, start, ROOM};
use crate::worker::Worker;
use oracle::book::{Call, Question};
use oracle::case::{Alinea, Setting};
use oracle::network::{chain, Followers, Network, Segment};

const MVS: [u64; 3] = [120_000, 54_943, 40_520];
const INITIAL_SPEEDS: [u64; 3] = [93_582, 41_089, 69_218];
const QUEUES: [u64; 3] = [200_000, 70_000, 1_000];

/// One step, with what is set before it, and every figure after it.
pub struct Worked<const N: usize> {
    pub set: &'static [Call<'static>],
    pub arrivals: [u32; N],
    /// Steps, segments, queues, arrivals, exits, time.
    pub case: [u64; 6],
    /// Of each segment N, s, bits of v, w, last outflow, last release, R, S, m
    /// and b; the last three are in no report.
    pub segments: [[u64; 10]; N],
}

// A line a segment, as it was worked out.
#[rustfmt::skip]
const LIST: [Worked<3>; 5] = [
    Worked {
        set: &[alinea(3, [30, 1_427, 900, 2])],
        arrivals: [9_000, 2_500, 700],
        case: [1, 291_268, 193_236, 12_200, 14_159, 4_864_630],
        segments: [
            [87_612, 100_000, 0x40f8_6a00_0000_0000, 179_000, 62_388, 30_000, 30_000, 0, 0, 0],
            [167_757, 70_587, 0x40f1_3bb2_211e_1bf0, 14_236, 7_838, 58_264, 60_000, 0, 0, 2_089_270],
            [35_899, 71_537, 0x40f1_771f_fb74_c9f6, 0, 12_984, 1_700, 30_000, 40_520, 1, 1_693_600],
        ],
    },
    Worked {
        set: &[sign(1, 20, -500), alinea(2, [31, 2_241, 200, 2])],
        arrivals: [8_000, 1_500, 0],
        case: [2, 298_947, 177_000, 21_700, 32_216, 9_709_670],
        segments: [
            [48_939, 40_995, 0x40e4_0471_d1aa_e4de, 177_000, 48_673, 10_000, 30_000, 0, 0, 600_000],
            [191_050, 88_894, 0x40f5_b3ea_2074_ee69, 0, 41_116, 15_736, 60_000, 167_757, 1, 2_642_860],
            [58_958, 79_556, 0x40f3_6c45_788a_20f5, 0, 11_890, 0, 30_000, 76_419, 2, 361_230],
        ],
    },
    Worked {
        set: &[sign(1, 45, -50), sign(2, 60, -100)],
        arrivals: [9_500, 0, 1_200],
        case: [3, 299_422, 156_665, 32_400, 62_776, 14_469_140],
        segments: [
            [67_628, 1_000, 0x408f_4000_0000_0000, 156_665, 11_146, 29_835, 30_000, 0, 0, 343_050],
            [143_226, 68_796, 0x40f0_cbce_fb5f_cbf6, 0, 58_970, 0, 200, 191_050, 1, 1_029_860],
            [88_568, 93_886, 0x40f6_ebe4_9922_237c, 0, 21_715, 1_200, 27_373, 58_958, 1, 587_710],
        ],
    },
    Worked {
        set: &[sign(1, 51, 0)],
        arrivals: [7_000, 2_000, 0],
        case: [4, 256_994, 164_465, 41_400, 106_404, 19_030_010],
        segments: [
            [68_253, 15_219, 0x40cd_b9e8_062a_4ce4, 162_665, 375, 1_000, 30_000, 0, 0, 1_623_050],
            [109_588, 49_427, 0x40e8_2261_0093_a060, 1_800, 34_213, 200, 200, 334_276, 2, 1_348_820],
            [79_153, 89_310, 0x40f5_cde5_dca5_b6ec, 0, 38_497, 0, 27_373, 147_526, 2, 20_190],
        ],
    },
    Worked {
        set: &[fixed(3, 900)],
        arrivals: [7_000, 2_000, 1_500],
        case: [5, 237_765, 158_646, 51_900, 141_952, 23_244_600],
        segments: [
            [77_701, 34_950, 0x40e1_10c6_6ad3_50d9, 154_446, 5_771, 15_219, 30_000, 0, 0, 1_247_120],
            [96_751, 47_062, 0x40e6_fac6_cc86_b0d4, 3_600, 18_808, 200, 200, 109_588, 1, 369_580],
            [63_313, 81_045, 0x40f3_c955_dc1f_0098, 600, 32_727, 900, 900, 0, 0, 1_244_490],
        ],
    },
];

/// T 10, τ 18, ν 60, κ 40, δ 122; one curve, falling by 450 m/h an entry; an
/// origin at each of three segments and an off-ramp at the second.
fn network() -> Network {
    let segment = |length, exit_share, most_released| Segment {
        length,
        lanes: 2,
        curve: 0,
        critical: 30,
        jam: 180,
        origin: true,
        exit_share,
        most_released,
        followers: Followers::NONE,
    };
    Network {
        version: 1,
        step: 10,
        relaxation: 18,
        anticipation: 60,
        kappa: 40,
        merging: 122,
        curves: vec![std::array::from_fn(|density| {
            100_000 - 450 * density as u32
        })],
        segments: chain(vec![
            segment(500, 0, 30_000),
            segment(800, 150, 60_000),
            segment(600, 0, 30_000),
        ]),
    }
}

#[test]
fn the_worked_list_in_the_book() {
    let lists: [&[u64]; 3] = [&MVS, &INITIAL_SPEEDS, &QUEUES];
    let mut book = start(&network(), ROOM, lists).expect("a good start");
    for worked in &LIST {
        worked.take(&mut book);
    }
}

#[test]
fn the_worked_list_in_arrays() {
    let mut lent = Lent::free(3);
    assert_eq!(lent.start(&network(), [&MVS, &INITIAL_SPEEDS, &QUEUES]), 0);
    for worked in &LIST {
        worked.take(&mut lent);
    }
    lent.assert_past();
}

impl<const N: usize> Worked<N> {
    /// Makes the step, and compares every figure.
    pub fn take(&self, study: &mut impl Worker) {
        let arrivals = &self.arrivals;
        for item in self.set.iter().chain([&Call::Step { arrivals }]) {
            assert_eq!(study.answer(item), Ok(vec![]));
        }
        let report = study.answer(&ask(0, &Question::Case));
        assert_eq!(report, Ok(self.case.into()));
        for (segment, figures) in (1..).zip(self.segments) {
            let (reported, unreported) = figures.split_at(7);
            let report = study.answer(&ask(0, &Question::Segment(segment)));
            assert_eq!(report, Ok(reported.into()));
            assert_eq!(study.unreported(segment as usize - 1), unreported);
        }
    }
}

pub const fn sign(segment: u64, limit: u64, compliance: i64) -> Call<'static> {
    Call::Sign {
        segment,
        limit,
        compliance,
    }
}

const fn fixed(segment: u64, rate: u64) -> Call<'static> {
    let setting = Setting::Fixed(rate);
    Call::Meter { segment, setting }
}

/// Target, gain, least and interval.
pub const fn alinea(segment: u64, [target, gain, least, interval]: [u64; 4]) -> Call<'static> {
    let setting = Setting::Alinea(Alinea {
        target,
        gain,
        least,
        interval,
    });
    Call::Meter { segment, setting }
}
