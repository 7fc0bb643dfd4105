//! From text to run file.

use crate::section::Section;
use crate::{kinds, names, number};
use reference::{RunFile, Step};
use std::fmt;

/// The most the three counts of a run file may say.
pub const MEMORY_LIMIT: usize = 32_768;
pub const STEP_LIMIT: usize = 512;
pub const CARD_LIMIT: usize = 16_384;

/// A line that could not be read, from 1, and what was expected there.
#[derive(Clone, Debug, PartialEq, Eq)]
pub struct Fault {
    pub line: usize,
    pub message: String,
}

impl fmt::Display for Fault {
    fn fmt(&self, out: &mut fmt::Formatter) -> fmt::Result {
        write!(out, "line {}: {}", self.line, self.message)
    }
}

/// The run file a text describes.
pub fn to_file(text: &str) -> Result<RunFile, Fault> {
    let mut gathering = Gathering::new();
    for (place, line) in text.lines().enumerate() {
        gathering.line(line).map_err(|message| Fault {
            line: place + 1,
            message,
        })?;
    }
    Ok(RunFile {
        memory: gathering.memory.done(),
        steps: gathering.steps,
        card: gathering.card.done(),
    })
}

struct Gathering {
    memory: Section,
    steps: Vec<Step>,
    card: Section,
}

impl Gathering {
    fn new() -> Gathering {
        Gathering {
            memory: Section::new("memory", MEMORY_LIMIT),
            steps: Vec::new(),
            card: Section::new("card", CARD_LIMIT),
        }
    }

    fn line(&mut self, line: &str) -> Result<(), String> {
        let said = line.split('#').next().unwrap_or("").to_ascii_lowercase();
        let words: Vec<&str> = said.split_whitespace().collect();
        match words.as_slice() {
            [] => Ok(()),
            ["memory", rest @ ..] => self.memory.add(rest),
            ["card", rest @ ..] => self.card.add(rest),
            words => self.step(words),
        }
    }

    fn step(&mut self, words: &[&str]) -> Result<(), String> {
        let step = step(words)?;
        if self.steps.len() == STEP_LIMIT {
            return Err(format!("expected at most {STEP_LIMIT} steps"));
        }
        self.steps.push(step);
        Ok(())
    }
}

// The step a line's words describe.
fn step(words: &[&str]) -> Result<Step, String> {
    match words {
        ["write", rest @ ..] => write(rest),
        ["read", rest @ ..] => read(rest),
        ["response", rest @ ..] => response(rest),
        ["error", rest @ ..] => data_error(rest),
        ["level", rest @ ..] => level(rest),
        ["raw", rest @ ..] => raw(rest),
        _ => phrase(&words.join(" ")),
    }
}

fn phrase(said: &str) -> Result<Step, String> {
    match kinds::PHRASES.iter().find(|(_, phrase)| *phrase == said) {
        Some((kind, _)) => Ok(kinds::plain(*kind)),
        None => Err(format!(
            "expected memory, card, write, read, in, out, response, given, taken, \
             busy over, error, level, turn or raw, found `{said}`"
        )),
    }
}

fn write(words: &[&str]) -> Result<Step, String> {
    let [place, value] = words else {
        return Err("expected a place and a value, as in `write 02Ch/2 5h`".to_string());
    };
    let (offset, width) = access(place)?;
    let value = number(value, "a value", u32::MAX)?;
    Ok(kinds::write(offset, width, value))
}

fn read(words: &[&str]) -> Result<Step, String> {
    let [place] = words else {
        return Err("expected a place alone, as in `read 024h/4`".to_string());
    };
    let (offset, width) = access(place)?;
    Ok(kinds::read(offset, width))
}

// Any 16-bit offset and any width is taken: the answer table judges them.
fn access(word: &str) -> Result<(u16, u8), String> {
    let (place, width) = word
        .split_once('/')
        .ok_or(format!("expected OFFSET/WIDTH, found `{word}`"))?;
    let offset = names::offset(place).ok_or(format!(
        "expected a register's name or an offset in hex up to 0FFFFh, such as 02Ch, found `{place}`"
    ))?;
    let width = number(width, "a width", u8::MAX as u32)? as u8;
    Ok((offset, width))
}

fn response(words: &[&str]) -> Result<Step, String> {
    let [detail, given @ ..] = words else {
        return Err(expected_one(&kinds::RESPONSES));
    };
    let detail = named(detail, &kinds::RESPONSES)?;
    if given.len() > 4 {
        return Err("expected at most four words after the response".to_string());
    }
    let mut stored = [0; 4];
    for (place, word) in stored.iter_mut().zip(given) {
        *place = number(word, "a word of the response", u32::MAX)?;
    }
    Ok(kinds::response(detail, stored))
}

fn data_error(words: &[&str]) -> Result<Step, String> {
    let [detail] = words else {
        return Err(expected_one(&kinds::DATA_ERRORS));
    };
    Ok(kinds::detailed(
        kinds::DATA_ERROR,
        named(detail, &kinds::DATA_ERRORS)?,
    ))
}

fn level(words: &[&str]) -> Result<Step, String> {
    match words {
        ["0"] => Ok(kinds::detailed(kinds::LEVEL, 0)),
        ["1"] => Ok(kinds::detailed(kinds::LEVEL, 1)),
        _ => Err("expected `level 0` or `level 1`".to_string()),
    }
}

fn raw(words: &[&str]) -> Result<Step, String> {
    let [kind, detail, offset, given @ ..] = words else {
        return Err("expected `raw KIND DETAIL OFFSET W1 W2 W3 W4`".to_string());
    };
    if given.len() != 4 {
        return Err(format!(
            "expected `raw KIND DETAIL OFFSET W1 W2 W3 W4`, seven numbers, found {}",
            words.len()
        ));
    }
    let mut step = kinds::plain(number(kind, "a kind", u8::MAX as u32)? as u8);
    step.detail = number(detail, "a detail", u8::MAX as u32)? as u8;
    step.offset = number(offset, "an offset", u16::MAX as u32)? as u16;
    for (place, word) in step.words.iter_mut().zip(given) {
        *place = number(word, "a word", u32::MAX)?;
    }
    Ok(step)
}

fn named(word: &str, names: &[&str]) -> Result<u8, String> {
    if let Some(place) = names.iter().position(|name| *name == word) {
        return Ok(place as u8);
    }
    number::read(word)
        .and_then(|value| u8::try_from(value).ok())
        .ok_or(format!("{}, found `{word}`", expected_one(names)))
}

fn expected_one(names: &[&str]) -> String {
    format!("expected {} or a number up to 255", names.join(", "))
}

fn number(word: &str, what: &str, most: u32) -> Result<u32, String> {
    number::read(word)
        .filter(|value| *value <= most)
        .ok_or(format!(
            "expected {what} up to {}, in decimal or in hex as 0Fh or 0x0F, found `{word}`",
            number::show(most)
        ))
}
