//! Inputs to begin with: whole valid files of both versions and survey files,
//! sound studies and lists of right calls, damaged arrays, and short bytes of
//! any content.

use harness::calls::KINDS;
use harness::networks::road;
use harness::random::Random;
use harness::surveys::Day;
use oracle::file;
use std::path::Path;
use std::{fs, io};

/// Inputs of each kind.
const EACH: u64 = 40;
/// Largest network of a whole file: larger ones are made from few bytes.
const SEGMENTS: u64 = 6;

/// Writes all of them into the folder; the same seed gives the same inputs.
pub fn write(folder: &Path, seed: u64) -> io::Result<()> {
    let kinds = [whole_file, right_calls, damaged, any_bytes, whole_survey];
    for (number, kind) in kinds.iter().enumerate() {
        for index in 0..EACH {
            let mut random = Random::new(seed, number as u64, index);
            let name = format!("seed-{number}-{index:02}");
            fs::write(folder.join(name), kind(&mut random))?;
        }
    }
    Ok(())
}

/// For `files::raw`: curve 0, a generator's two bytes, a file of one curve.
fn whole_file(random: &mut Random) -> Vec<u8> {
    let segments = random.between(1, SEGMENTS);
    let mut network = road(random, segments);
    network.curves.truncate(1);
    for segment in &mut network.segments {
        segment.curve = 0;
        segment.length = 2000;
    }
    let mut bytes = vec![0, 0];
    bytes.extend(any(random, 2));
    bytes.extend(file::write(&network));
    bytes
}

/// For `files::survey`: n, a generator's two bytes, a file.
fn whole_survey(random: &mut Random) -> Vec<u8> {
    let segments = random.between(1, 40);
    let network = road(random, segments);
    let mut bytes = vec![2, segments as u8];
    bytes.extend(any(random, 2));
    bytes.extend(Day::some(random, &network).file());
    bytes
}

/// For `studies::calls`: a sound study in arrays of exactly its length, and
/// right calls.
fn right_calls(random: &mut Random) -> Vec<u8> {
    let mut bytes = vec![4];
    bytes.extend(any(random, 2));
    bytes.extend([1, random.below(256) as u8, 15, 15, 0]);
    for _ in 0..random.between(1, 12) {
        bytes.extend([random.below(KINDS.len() as u64) as u8, 0]);
        bytes.extend(any(random, 2));
    }
    bytes
}

/// For every kind of target but raw files: anything after two bytes for what
/// is made.
fn damaged(random: &mut Random) -> Vec<u8> {
    let mut bytes = vec![random.between(1, 7) as u8];
    bytes.extend(any(random, 2));
    bytes.extend([random.below(8) as u8, random.below(256) as u8, 15, 15]);
    bytes.extend(any(random, 40));
    bytes
}

fn any_bytes(random: &mut Random) -> Vec<u8> {
    let length = random.between(1, 80);
    any(random, length as usize)
}

fn any(random: &mut Random, length: usize) -> Vec<u8> {
    let mut bytes = vec![0; length];
    random.fill(&mut bytes);
    bytes
}
