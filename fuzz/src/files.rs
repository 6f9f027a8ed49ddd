//! Files of any bytes, and files of valid networks with something changed.

use crate::input::Input;
use harness::compare::{curves, expect_agreement, surveys, Difference};
use harness::draft::{record_length, CURVE, HEAD};
use harness::networks::{calm_road, network, road, Shape, ANY};
use harness::random::Random;
use oracle::file::{self, Network};

/// The rest of the input is the file.
pub fn raw(input: &mut Input) -> Result<(), Difference> {
    let curve = input.number();
    let mut random = input.random();
    ask(&Box::from(input.rest()), curve, &mut random)
}

pub fn patched(input: &mut Input) -> Result<(), Difference> {
    let mut random = input.random();
    let network = valid(input, &mut random);
    let curve = input.number();
    ask(&changed(input, &network), curve, &mut random)
}

/// The rest of the input is a survey file.
pub fn survey(input: &mut Input) -> Result<(), Difference> {
    let n = input.number();
    let mut random = input.random();
    surveys::expect_agreement(&Box::<[u8]>::from(input.rest()), n, &mut random)
}

fn ask(file: &[u8], curve: u64, random: &mut Random) -> Result<(), Difference> {
    expect_agreement(file, "a file")?;
    curves::expect_agreement(file, curve, random)
}

/// A valid network of either version, mostly of few segments.
pub fn valid(input: &mut Input, random: &mut Random) -> Network {
    let size = u64::from(input.byte());
    let segments = match size {
        0..=223 => 1 + size % 6,
        _ => size - 223 + 8,
    };
    let binding = Shape {
        least_segments: 2,
        binding: true,
        ..ANY
    };
    match size / 6 % 8 {
        0..=3 => road(random, segments),
        4..=6 => calm_road(random, segments),
        _ => network(random, binding),
    }
}

/// The network's file with up to seven changes, and cut or longer at times.
pub fn changed(input: &mut Input, network: &Network) -> Box<[u8]> {
    let mut file = file::write(network);
    for _ in 0..input.below(8) {
        let at = place(input, &file, network);
        change(input, &mut file[at..]);
    }
    match input.below(16) {
        0 => file.truncate(input.place(file.len() + 1)),
        1 => file.truncate(file.len() - 1),
        2 => file.extend(vec![input.byte(); 1 + input.below(32)]),
        _ => {}
    }
    file.into()
}

/// A byte of the head, of a curve, of a record, of its end, where version 2 has
/// followers and share, or any.
fn place(input: &mut Input, file: &[u8], network: &Network) -> usize {
    let (curves, segments) = (network.curves.len(), network.segments.len());
    let records = HEAD + CURVE * curves;
    let length = record_length(network.version);
    match input.below(5) {
        0 => input.below(HEAD),
        1 => HEAD + 4 * input.place(201 * curves) + input.below(4),
        2 => records + input.place(length * segments),
        3 => records + length * (1 + input.place(segments)) - 1 - input.below(4),
        _ => input.place(file.len()),
    }
}

/// The first bytes flipped, one higher or lower, or of another number, as a
/// number of 1, 2 or 4 bytes.
fn change(input: &mut Input, bytes: &mut [u8]) {
    let kind = input.below(8);
    let width = [1, 2, 4][kind % 3].min(bytes.len());
    match kind {
        0 => bytes[0] ^= input.byte(),
        1 => bytes[0] = bytes[0].wrapping_add(1),
        2 => bytes[0] = bytes[0].wrapping_sub(1),
        _ => {
            let number = input.number().to_be_bytes();
            bytes[..width].copy_from_slice(&number[8 - width..]);
        }
    }
}
