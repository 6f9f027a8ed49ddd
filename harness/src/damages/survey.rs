//! 25 and 26 on a survey file that is right for its n.

use super::{Damage, Part};
use crate::random::Random;
use crate::surveys::{put_n, HEAD, MOST_ROWS};

type Apply = fn(&mut Vec<u8>, usize, &mut Random);

const fn head(name: &'static str, apply: Apply) -> Damage<Vec<u8>> {
    damage(name, 25, apply)
}

const fn size(name: &'static str, apply: Apply) -> Damage<Vec<u8>> {
    damage(name, 26, apply)
}

const fn damage(name: &'static str, number: u64, apply: Apply) -> Damage<Vec<u8>> {
    Damage {
        name,
        number,
        part: Part::File,
        apply,
    }
}

pub const DAMAGES: &[Damage<Vec<u8>>] = &[
    head("under 8 bytes", |file, _, random| {
        file.truncate(random.edge(0, HEAD as u64 - 1) as usize)
    }),
    head("mark", |file, _, random| {
        file[random.below(3) as usize] ^= random.between(1, 255) as u8
    }),
    head("version", |file, _, random| {
        file[random.between(3, 4) as usize] ^= random.between(1, 255) as u8
    }),
    size("another n", |file, _, random| {
        file[5] ^= random.between(1, 255) as u8
    }),
    size("another n and its length", |file, _, random| {
        let n = random.outside(u64::from(file[5]), u64::from(file[5]), 60);
        put_n(file, n as u8);
    }),
    size("another row count", |file, _, random| {
        file[random.between(6, 7) as usize] ^= random.between(1, 255) as u8
    }),
    size("more than 20,000 rows", |file, _, random| {
        let rows = random.edge(MOST_ROWS as u64 + 1, 65_535);
        put_rows(file, rows as u16)
    }),
    size("20,001 rows and their length", |file, _, _| {
        put_rows(file, MOST_ROWS as u16 + 1);
        put_n(file, file[5]);
    }),
    size("a byte too few", |file, _, _| match file.len() {
        HEAD => file.push(0),
        length => file.truncate(length - 1),
    }),
    size("a byte too many", |file, _, _| file.push(0)),
    size("a row too many", |file, _, _| {
        let n = usize::from(file[5]);
        file.resize(file.len() + 4 * n, 0)
    }),
    size("another length", |file, _, random| {
        let length = file.len() as u64;
        let other = random.outside(length, length, 2 * length + 8);
        file.resize(HEAD.max(other as usize), 1);
        if file.len() as u64 == length {
            file.push(1);
        }
    }),
];

fn put_rows(file: &mut [u8], rows: u16) {
    file[6..HEAD].copy_from_slice(&rows.to_be_bytes());
}
