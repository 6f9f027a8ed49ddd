//! The network of the paper's tallies, a chain, and a junction.

use oracle::network::{chain, Followers, Network, Segment, ENTRIES};

/// T 10, τ 20, ν 0, κ 40, δ 0, one flat curve, one segment.
pub fn tallies() -> Network {
    Network {
        version: 1,
        step: 10,
        relaxation: 20,
        anticipation: 0,
        kappa: 40,
        merging: 0,
        curves: vec![[100_000; ENTRIES]],
        segments: vec![Segment {
            length: 500,
            lanes: 2,
            curve: 0,
            critical: 30,
            jam: 180,
            origin: true,
            exit_share: 0,
            most_released: 6_000,
            followers: Followers::NONE,
        }],
    }
}

/// Three segments: an off-ramp at the first, an origin at the second, and
/// every term of the speed equation at work.
pub fn three_segments() -> Network {
    let curve = std::array::from_fn(|density| 102_000 - 507 * density as u32);
    let segment = |length, lanes, origin, exit_share, most_released| Segment {
        length,
        lanes,
        curve: 0,
        critical: 33,
        jam: 180,
        origin,
        exit_share,
        most_released,
        followers: Followers::NONE,
    };
    Network {
        version: 1,
        step: 10,
        relaxation: 18,
        anticipation: 60,
        kappa: 40,
        merging: 122,
        curves: vec![curve],
        segments: chain(vec![
            segment(501, 3, true, 77, 16_000),
            segment(703, 2, true, 0, 5_500),
            segment(999, 2, false, 0, 0),
        ]),
    }
}

/// Two freeways meet and one parts: segments 1 and 2 enter 3, which has an
/// on-ramp and an off-ramp, and from which a third goes to 4 and the rest to 5.
/// Its file is tests/junction.fwn.
pub fn junction() -> Network {
    let segment = |most_released, exit_share, ahead| Segment {
        length: 500,
        lanes: 2,
        curve: 0,
        critical: 30,
        jam: 180,
        origin: most_released != 0,
        exit_share,
        most_released,
        followers: followers(ahead),
    };
    Network {
        version: 2,
        step: 10,
        relaxation: 20,
        anticipation: 60,
        kappa: 40,
        merging: 122,
        curves: vec![[100_000; ENTRIES]],
        segments: vec![
            segment(6_000, 0, [3, 0, 1000]),
            segment(4_000, 0, [3, 0, 1000]),
            segment(2_000, 77, [4, 5, 333]),
            segment(0, 0, [0, 0, 1000]),
            segment(0, 0, [0, 0, 1000]),
        ],
    }
}

/// First and second follower, and the share of the first.
pub fn followers([first, second, share]: [u16; 3]) -> Followers {
    Followers {
        first: first as u8,
        second: second as u8,
        share,
    }
}
