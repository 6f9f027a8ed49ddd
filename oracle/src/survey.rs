//! The survey file: a day of arrivals, row by row.

use crate::refusal::{BUFFER, SURVEY_HEAD, SURVEY_SIZE};

/// The mark that begins every file.
const MARK_BYTES: &[u8; 3] = b"FWD";
/// The only version.
const FILE_VERSION: u16 = 1;
/// Mark, version, n and the row count.
const HEAD_BYTES: usize = 8;
const ARRIVAL_BYTES: usize = 4;
/// Most rows of a file.
pub const MOST_ROWS: usize = 20_000;
/// Most segments of any study.
const MOST_SEGMENTS: u64 = 40;

/// The rows of a file for n segments, each of n arrivals in mv; or 25, then
/// 26. The arrivals themselves are not judged.
pub fn rows(file: &[u8], n: u64) -> Result<impl Iterator<Item = Vec<u32>> + '_, u8> {
    let body = judge(file, n)?;
    Ok(body.chunks_exact(n as usize).map(numbers))
}

/// The reader: the row count and all arrivals for a list of so many places,
/// or the first of 25, 26 and 24.
pub fn read(file: &[u8], n: u64, room: usize) -> Result<(u64, Vec<u32>), u8> {
    let body = judge(file, n)?;
    match body.len() <= room {
        true => Ok((body.len() as u64 / n, numbers(body))),
        false => Err(BUFFER),
    }
}

/// The arrivals of an accepted file, four bytes each; or 25, then 26.
fn judge(file: &[u8], n: u64) -> Result<&[[u8; ARRIVAL_BYTES]], u8> {
    let head = file.split_first_chunk::<HEAD_BYTES>().ok_or(SURVEY_HEAD)?;
    let (&[f, w, d, version0, version1, segments, rows0, rows1], body) = head;
    if [f, w, d] != *MARK_BYTES || u16::from_be_bytes([version0, version1]) != FILE_VERSION {
        return Err(SURVEY_HEAD);
    }
    let rows = usize::from(u16::from_be_bytes([rows0, rows1]));
    let length = ARRIVAL_BYTES * usize::from(segments) * rows;
    let own = (1..=MOST_SEGMENTS).contains(&n) && u64::from(segments) == n;
    match own && rows <= MOST_ROWS && body.len() == length {
        true => Ok(body.as_chunks().0),
        false => Err(SURVEY_SIZE),
    }
}

/// Big-endian numbers.
fn numbers(bytes: &[[u8; ARRIVAL_BYTES]]) -> Vec<u32> {
    let numbers = bytes.iter().map(|&bytes| u32::from_be_bytes(bytes));
    numbers.collect()
}

/// The writer: the file of whole rows of n arrivals for a buffer of so many
/// bytes, or the first of 26 and 24.
pub fn write(n: u64, list: &[u32], room: usize) -> Result<Vec<u8>, u8> {
    let length = list.len() as u64;
    if !(1..=MOST_SEGMENTS).contains(&n)
        || !length.is_multiple_of(n)
        || length / n > MOST_ROWS as u64
    {
        return Err(SURVEY_SIZE);
    }
    let mut file = Vec::with_capacity(HEAD_BYTES + ARRIVAL_BYTES * list.len());
    file.extend(MARK_BYTES);
    file.extend(FILE_VERSION.to_be_bytes());
    file.push(n as u8);
    file.extend(((length / n) as u16).to_be_bytes());
    for arrival in list {
        file.extend(arrival.to_be_bytes());
    }
    match file.len() <= room {
        true => Ok(file),
        false => Err(BUFFER),
    }
}

/// What a run of rows answers: rows taken, and the number that stopped it or
/// 0. It ends at the first row that `take` refuses.
pub(crate) fn run(
    rows: impl Iterator<Item = Vec<u32>>,
    mut take: impl FnMut(&[u32]) -> Result<(), u8>,
) -> Vec<u64> {
    let mut taken = 0;
    for row in rows {
        match take(&row) {
            Ok(()) => taken += 1,
            Err(number) => return vec![taken, u64::from(number)],
        }
    }
    vec![taken, 0]
}
