//! Where a refused file is wrong: the first fault in the order of the table,
//! found by walking the bytes from the front.

mod records;

use super::{check, record_bytes, CURVE_BYTES, HEAD_BYTES, MARK_BYTES};
use crate::network::ENTRIES;
use crate::refusal::{CURVE_ENTRY, HEAD_FIELD, LENGTH, MARK, NO_HEAD, VERSION};
use records::in_records;

/// The number that refuses a file, and the curve or record, the rule or
/// entry, and the byte that it is refused for. All from 0.
#[derive(Debug, Clone, Copy, PartialEq, Eq, Default)]
pub struct Place {
    pub number: u8,
    pub part: usize,
    pub rule: usize,
    pub byte: usize,
}

/// A field of the head in the order of its rules: byte, bytes, range.
const HEAD_FIELDS: [(usize, usize, u64, u64); 10] = [
    (5, 1, 1, 60),
    (6, 1, 1, 40),
    (7, 1, 1, 8),
    (8, 1, 1, 120),
    (9, 1, 0, 200),
    (10, 1, 1, 200),
    (12, 2, 0, 1000),
    (11, 1, 0, 0),
    (14, 1, 0, 0),
    (15, 1, 0, 0),
];

pub fn place(file: &[u8]) -> Place {
    let number = check(file);
    let at = |byte| Place {
        number,
        byte,
        ..Place::default()
    };
    match number {
        0 => Place::default(),
        NO_HEAD => at(file.len()),
        MARK => at((0..3).find(|&i| file[i] != MARK_BYTES[i]).unwrap()),
        VERSION => at(3),
        HEAD_FIELD => in_head(file),
        LENGTH => at(file.len().min(record(file, segments(file)))),
        CURVE_ENTRY => in_curves(file),
        _ => in_records(file).expect("a record was refused"),
    }
}

fn version(file: &[u8]) -> u64 {
    number(&file[3..5])
}

fn segments(file: &[u8]) -> usize {
    usize::from(file[6])
}

/// Where a record (from 0) begins; the one after the last begins where the file
/// should end.
fn record(file: &[u8], part: usize) -> usize {
    let curves = CURVE_BYTES * usize::from(file[7]);
    HEAD_BYTES + curves + record_bytes(version(file)) * part
}

/// The big-endian number of some bytes.
fn number(bytes: &[u8]) -> u64 {
    bytes
        .iter()
        .fold(0, |number, &byte| 256 * number + u64::from(byte))
}

fn in_head(file: &[u8]) -> Place {
    let wrong = |&(at, bytes, low, high): &(usize, usize, u64, u64)| {
        !(low..=high).contains(&number(&file[at..at + bytes]))
    };
    let rule = HEAD_FIELDS.iter().position(wrong).unwrap();
    Place {
        number: HEAD_FIELD,
        part: 0,
        rule,
        byte: HEAD_FIELDS[rule].0,
    }
}

fn in_curves(file: &[u8]) -> Place {
    let mut before = 0;
    let entries = file[HEAD_BYTES..record(file, 0)].chunks(4).map(number);
    for (place, entry) in entries.enumerate() {
        let (part, rule) = (place / ENTRIES, place % ENTRIES);
        let refused = match rule {
            0 => !(1_000..=200_000).contains(&entry),
            _ => entry > before,
        };
        if refused {
            return Place {
                number: CURVE_ENTRY,
                part,
                rule,
                byte: HEAD_BYTES + 4 * place,
            };
        }
        before = entry;
    }
    unreachable!("a curve was refused")
}
