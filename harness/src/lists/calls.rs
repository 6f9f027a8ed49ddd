//! A line with a call, and the line with its answer.

use super::arguments::{parse, Words};
use crate::calls::{figures_of, Answer, Call, Question, Start, RUN_FIGURES};
use oracle::case::{Alinea, Setting};

/// Words lent past the figures, which must stay.
const PAST: usize = 3;

/// The call. Where the line names no room, there is more than enough.
pub fn call(words: &mut Words) -> Result<Call, String> {
    let call = match words.word()? {
        "start" => start(words)?,
        "sign" => Call::Sign {
            segment: words.number()?,
            limit: words.number()?,
            compliance: words.number()?,
        },
        "meter" => Call::Meter {
            segment: words.number()?,
            setting: setting(words)?,
        },
        "step" => Call::Step(words.list()?.into()),
        "run" => Call::Run {
            file: words.bytes()?.into(),
            room: room(words, RUN_FIGURES)?,
        },
        "hold" => Call::Hold(words.number()?),
        "recall" => Call::Recall(words.number()?),
        "drop" => Call::Drop(words.number()?),
        "report" => question(words, |_| Ok(Question::Case))?,
        "segment" => question(words, |words| Ok(Question::Segment(words.number()?)))?,
        "drain" => question(words, |words| Ok(Question::Drain(words.number()?)))?,
        "run_count" => Call::RunCount {
            room: room(words, 1)?,
        },
        "write" => Call::Write {
            room: words.number()?,
        },
        other => return Err(format!("no call {other}")),
    };
    words.end()?;
    Ok(call)
}

/// What the call may answer, mostly one thing; `file` is that of the last
/// accepted start.
pub fn answers(call: &Call, words: &mut Words, file: &[u8]) -> Result<Vec<Answer>, String> {
    let mut answer = Answer::lent(call);
    let mut figures = vec![Vec::new()];
    words.expect(">")?;
    match (words.word()?, call) {
        ("ok", Call::Write { .. }) => {
            words.expect("file")?;
            answer.give_bytes(file);
        }
        ("ok", Call::Question { question, .. }) if matches!(question, Question::Drain(_)) => {
            figures = drains(words.word()?)?;
        }
        ("ok", _) => figures = vec![words.numbers("")?],
        (number, _) => answer.number = parse(number)?,
    }
    words.end()?;
    Ok(figures
        .iter()
        .map(|figures| answer.given(figures))
        .collect())
}

/// The figures of each of these: a number of steps, or "never".
fn drains(word: &str) -> Result<Vec<Vec<u64>>, String> {
    let figures = |drain: &str| match drain {
        "never" => Ok(vec![1, 0]),
        steps => Ok(vec![0, parse(steps)?]),
    };
    word.split('|').map(figures).collect()
}

/// A question about a case; `own` reads what it has beside the case.
fn question(
    words: &mut Words,
    own: fn(&mut Words) -> Result<Question, String>,
) -> Result<Call, String> {
    let case = words.number()?;
    let question = own(words)?;
    let room = room(words, figures_of(&question))?;
    Ok(Call::Question {
        case,
        question,
        room,
    })
}

fn start(words: &mut Words) -> Result<Call, String> {
    let file = words.bytes()?.into();
    words.expect("|")?;
    Ok(Call::Start(Start {
        file,
        counts: words.numbers("|")?,
        speeds: words.numbers("|")?,
        queues: words.numbers("")?,
    }))
}

fn setting(words: &mut Words) -> Result<Setting, String> {
    match words.word()? {
        "open" => Ok(Setting::Open),
        "fixed" => Ok(Setting::Fixed(words.number()?)),
        "alinea" => Ok(Setting::Alinea(Alinea {
            target: words.number()?,
            gain: words.number()?,
            least: words.number()?,
            interval: words.number()?,
        })),
        other => Err(format!("no setting {other}")),
    }
}

fn room(words: &mut Words, figures: usize) -> Result<usize, String> {
    let named = words.optional("room")?;
    Ok(named.unwrap_or(figures + PAST))
}
