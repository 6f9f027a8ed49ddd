//! The state at the end of a list, as reports show it; what no report shows as
//! it stands in the words.

use super::arguments::parse;
use super::player::Player;
use crate::calls::{Answer, Call, Question, CASE_FIGURES, SEGMENT_FIGURES};
use crate::stored_case::{REMAINDER, SUM, SUM_STEPS};
use oracle::book::SLOTS;

/// An empty slot.
const EMPTY: u64 = 23;

/// What no report shows of a segment: its name in a list, and its word.
const UNREPORTED: [(&str, usize); 3] = [("S", SUM), ("m", SUM_STEPS), ("b", REMAINDER)];

/// A case: its report, that of each of its segments, and what they do not show.
#[derive(Default)]
struct Case {
    figures: [u64; CASE_FIGURES],
    segments: Vec<[u64; SEGMENT_FIGURES]>,
    unreported: Vec<[u64; UNREPORTED.len()]>,
}

/// Run count, which slots are filled, and all figures of each case.
pub fn expect<'a>(player: &mut Player, lines: impl Iterator<Item = &'a str>) -> Result<(), String> {
    let mut runs = None;
    let mut filled = Vec::new();
    let mut cases: Vec<(usize, Case)> = Vec::new();
    for line in lines {
        let words: Vec<&str> = line.split_whitespace().skip(1).collect();
        match words[..] {
            ["runs", count] => runs = Some(parse(count)?),
            ["filled", ref marks @ ..] => filled = marks.to_vec(),
            ["case", "live", ..] => cases.push((0, begun(&words)?)),
            ["case", "slot", slot, ..] => cases.push((parse(slot)?, begun(&words)?)),
            ["seg", ..] => cases.last_mut().ok_or("no case")?.1.add(&words)?,
            _ => return Err(format!("no state: {line}")),
        }
    }
    let count = Call::RunCount { room: 1 };
    ask(player, &count, Some(&[runs.ok_or("no run count")?]))?;
    for number in 0..=SLOTS {
        let case = cases.iter().find(|(of, _)| *of == number);
        let is_filled = number == 0 || filled.get(number - 1) == Some(&"1");
        if case.is_some() != is_filled {
            return Err(format!("no mark, or no case {number}"));
        }
        report(player, number as u64, case.map(|(_, case)| case))?;
        let unreported = case.map_or(&[][..], |(_, case)| &case.unreported);
        compare(player, number, unreported)?;
    }
    Ok(())
}

/// All reports of a case, or 23 where there is none.
fn report(player: &mut Player, number: u64, case: Option<&Case>) -> Result<(), String> {
    let question = |question, room| Call::Question {
        case: number,
        question,
        room,
    };
    let of_case = question(Question::Case, CASE_FIGURES);
    ask(player, &of_case, case.map(|case| &case.figures[..]))?;
    let segments = case.map_or(&[][..], |case| &case.segments);
    (1..).zip(segments).try_for_each(|(segment, figures)| {
        let of_segment = question(Question::Segment(segment), SEGMENT_FIGURES);
        ask(player, &of_segment, Some(figures))
    })
}

/// What no report shows of each segment of a case.
fn compare(
    player: &Player,
    number: usize,
    unreported: &[[u64; UNREPORTED.len()]],
) -> Result<(), String> {
    for (place, expected) in unreported.iter().enumerate() {
        let engine = UNREPORTED.map(|(_, word)| player.word(number, place, word));
        if engine != *expected {
            let names = UNREPORTED.map(|(name, _)| name);
            let what = format!("{names:?} of segment {} in case {number}", place + 1);
            return Err(format!("{what}: expected {expected:?}, engine {engine:?}"));
        }
    }
    Ok(())
}

fn ask(player: &mut Player, call: &Call, figures: Option<&[u64]>) -> Result<(), String> {
    let mut expected = Answer::lent(call);
    match figures {
        Some(figures) => expected.give(figures),
        None => expected.number = EMPTY,
    }
    player.expect(call, &[expected])
}

/// A case by its totals; no segment has been added yet.
fn begun(words: &[&str]) -> Result<Case, String> {
    let mut case = Case::default();
    for (place, name) in [(0, "steps"), (3, "arrivals"), (4, "exits"), (5, "time")] {
        case.figures[place] = parse(after(words, name)?)?;
    }
    Ok(case)
}

impl Case {
    /// The next segment: N, s, bits of v, w, last outflow, last release, R;
    /// and what no report shows.
    fn add(&mut self, words: &[&str]) -> Result<(), String> {
        let figure = |name| after(words, name).and_then(parse);
        let bits = u64::from_str_radix(after(words, "v")?, 16).map_err(|_| "no bits")?;
        let (count, queue) = (figure("N")?, figure("w")?);
        self.figures[1] += count;
        self.figures[2] += queue;
        let (outflow, release) = (figure("out")?, figure("rel")?);
        let whole = f64::from_bits(bits) as u64;
        let rate = figure("R")?;
        self.segments
            .push([count, whole, bits, queue, outflow, release, rate]);
        let mut unreported = [0; UNREPORTED.len()];
        for (place, (name, _)) in unreported.iter_mut().zip(UNREPORTED) {
            *place = figure(name)?;
        }
        self.unreported.push(unreported);
        Ok(())
    }
}

/// The word after that name.
fn after<'a>(words: &[&'a str], name: &str) -> Result<&'a str, String> {
    let at = words.iter().position(|&word| word == name);
    let word = at.and_then(|at| words.get(at + 1));
    word.copied().ok_or_else(|| format!("no {name}"))
}
