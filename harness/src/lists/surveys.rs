//! A line with a survey file to be read, or a list to be written.

use super::arguments::{parse, Words};
use crate::engine::{survey_read, survey_write};
use crate::surveys::{Day, HEAD};

/// What stands in lent room before.
const FILL: u8 = 0x5a;

pub fn ask(words: &mut Words) -> Result<(), String> {
    let kind = words.word()?;
    let (n, room) = (words.number()?, words.number()?);
    let answer = words.word()?;
    match kind {
        "read" => read(n, room, answer, &words.bytes()?)?,
        "write" => write(n, room, answer, words.list()?)?,
        other => return Err(format!("no call {other}")),
    }
    words.end()
}

/// Into room for so many arrivals. What is accepted is written back.
fn read(n: u64, room: usize, answer: &str, file: &[u8]) -> Result<(), String> {
    let filled = (vec![u32::from(FILL); room], [u64::from(FILL); 2]);
    let (mut lent, mut expected) = (filled.clone(), filled);
    let mut number = 0;
    match answer.strip_prefix("ok,") {
        Some(rows) => {
            let numbers = file[HEAD..].as_chunks().0.iter();
            let list: Vec<u32> = numbers.map(|&bytes| u32::from_be_bytes(bytes)).collect();
            expected.0[..list.len()].copy_from_slice(&list);
            expected.1[0] = parse(rows)?;
            let mut written = vec![FILL; file.len()];
            let refused = survey_write(n, &list, &mut written);
            same(refused == 0 && written == file, "written back", refused)?;
        }
        None => number = parse(answer)?,
    }
    let answered = survey_read(file, n, &mut lent.0, &mut lent.1);
    same(answered == number && lent == expected, answer, answered)
}

/// Into room for so many bytes.
fn write(n: u64, room: usize, answer: &str, list: Vec<u32>) -> Result<(), String> {
    let mut lent = vec![FILL; room];
    let mut expected = lent.clone();
    let mut number = 0;
    let answered = survey_write(n, &list, &mut lent);
    match answer {
        "ok" => {
            let file = Day {
                n: n as usize,
                list,
            }
            .file();
            expected[..file.len()].copy_from_slice(&file);
        }
        _ => number = parse(answer)?,
    }
    same(answered == number && lent == expected, answer, answered)
}

fn same(same: bool, expected: &str, answered: u64) -> Result<(), String> {
    match same {
        true => Ok(()),
        false => Err(format!("expected {expected}, engine {answered}")),
    }
}
