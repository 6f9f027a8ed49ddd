//! The words of a line: numbers, lists of them, and bytes.

use std::collections::HashMap;
use std::str::{FromStr, SplitWhitespace};

/// Bytes by their name.
pub type Named = HashMap<String, Vec<u8>>;

/// What is left of a line.
pub struct Words<'a> {
    rest: SplitWhitespace<'a>,
    named: &'a Named,
}

impl<'a> Words<'a> {
    pub fn of(line: &'a str, named: &'a Named) -> Words<'a> {
        Words {
            rest: line.split_whitespace(),
            named,
        }
    }

    pub fn word(&mut self) -> Result<&'a str, String> {
        self.rest.next().ok_or_else(|| "a word is missing".into())
    }

    pub fn number<Number: FromStr>(&mut self) -> Result<Number, String> {
        parse(self.word()?)
    }

    /// Numbers up to that word, or to the end of the line.
    pub fn numbers<Number: FromStr + Clone>(&mut self, end: &str) -> Result<Vec<Number>, String> {
        let mut numbers = Vec::new();
        while let Some(word) = self.rest.next().filter(|&word| word != end) {
            let (number, times) = times(word)?;
            numbers.extend(vec![parse(number)?; times]);
        }
        Ok(numbers)
    }

    /// A list in brackets.
    pub fn list<Number: FromStr + Clone>(&mut self) -> Result<Vec<Number>, String> {
        self.expect("[")?;
        self.numbers("]")
    }

    /// None, named ones, or parts one after another.
    pub fn bytes(&mut self) -> Result<Vec<u8>, String> {
        let word = self.word()?;
        if let Some(name) = word.strip_prefix('@') {
            let bytes = self.named.get(name).cloned();
            return bytes.ok_or_else(|| format!("no bytes {name}"));
        }
        let mut bytes = Vec::new();
        for part in word.split('+').filter(|&part| part != "-") {
            let (digits, times) = times(part)?;
            bytes.extend(hexadecimal(digits)?.repeat(times));
        }
        Ok(bytes)
    }

    pub fn expect(&mut self, expected: &str) -> Result<(), String> {
        match self.word()? {
            word if word == expected => Ok(()),
            word => Err(format!("{word} in place of {expected}")),
        }
    }

    /// The number after a word that may stand here.
    pub fn optional(&mut self, name: &str) -> Result<Option<usize>, String> {
        let mut ahead = self.rest.clone();
        if ahead.next() != Some(name) {
            return Ok(None);
        }
        self.rest = ahead;
        self.number().map(Some)
    }

    /// No word is left.
    pub fn end(&mut self) -> Result<(), String> {
        match self.rest.next() {
            None => Ok(()),
            Some(word) => Err(format!("{word} past the end")),
        }
    }
}

/// A number in words.
pub fn parse<Number: FromStr>(word: &str) -> Result<Number, String> {
    word.parse().map_err(|_| format!("no number: {word}"))
}

/// What stands there, and how often.
fn times(word: &str) -> Result<(&str, usize), String> {
    match word.split_once('*') {
        None => Ok((word, 1)),
        Some((what, times)) => Ok((what, parse(times)?)),
    }
}

fn hexadecimal(digits: &str) -> Result<Vec<u8>, String> {
    let byte = |pair: &[u8]| {
        let pair = std::str::from_utf8(pair)
            .ok()
            .filter(|pair| pair.len() == 2);
        pair.and_then(|pair| u8::from_str_radix(pair, 16).ok())
    };
    let bytes: Option<Vec<u8>> = digits.as_bytes().chunks(2).map(byte).collect();
    bytes.ok_or_else(|| format!("not hexadecimal: {digits}"))
}
