//! The words of the call.

use crate::random::Choice;
use std::ffi::OsString;
use std::path::PathBuf;
use std::time::Duration;

pub const USAGE: &str = "usage: compare [--seed N] [--count N] [--seconds N] PROGRAM
       compare --library [--seed N] [--count N] [--seconds N]
       compare --stored DIR PROGRAM
       compare --faults [--seed N] [--count N]

PROGRAM is started with the name of a run file and prints what the run program
prints. Random files go through it and through the reference; with --stored the
texts of DIR go through it and must give the outputs kept beside them. With
--library no program is started: the steps of the same files go into the library
and into the reference, and all of both is compared after each step. Nor is one
with --faults: the reference, with one rule broken, goes against itself by its
text and against the library by its state, and the first random file that shows
it is told for each of the faults.";

/// Enough for every item to be met many times, well within a minute.
pub const USUAL_COUNT: u64 = 10_000;
pub const USUAL_SEED: u64 = 1;

/// What is asked for.
#[derive(Debug, PartialEq, Eq)]
pub enum Task {
    Random { choice: Choice, program: PathBuf },
    Library { choice: Choice },
    Stored { folder: PathBuf, program: PathBuf },
    Faults { seed: u64, count: u64 },
}

#[derive(Default)]
struct Given {
    seed: Option<u64>,
    count: Option<u64>,
    seconds: Option<u64>,
    stored: Option<PathBuf>,
    faults: bool,
    library: bool,
    program: Option<PathBuf>,
}

/// Reads the words after the program's own name.
pub fn read(words: impl IntoIterator<Item = OsString>) -> Result<Task, String> {
    let mut given = Given::default();
    let mut words = words.into_iter();
    while let Some(word) = words.next() {
        match word.to_str() {
            Some("--seed") => given.seed = Some(number(words.next())?),
            Some("--count") => given.count = Some(number(words.next())?),
            Some("--seconds") => given.seconds = Some(number(words.next())?),
            Some("--faults") => given.faults = true,
            Some("--library") => given.library = true,
            Some("--stored") => given.stored = Some(folder(words.next())?),
            Some(word) if word.starts_with("--") => return Err(usage(word)),
            _ if given.program.is_some() => return Err(USAGE.to_string()),
            _ => given.program = Some(PathBuf::from(word)),
        }
    }
    task(given).ok_or(USAGE.to_string())
}

fn task(given: Given) -> Option<Task> {
    let no_program = given.program.is_none() && given.stored.is_none();
    if given.faults {
        let alone = no_program && given.seconds.is_none() && !given.library;
        return alone.then_some(Task::Faults {
            seed: given.seed.unwrap_or(USUAL_SEED),
            count: given.count.unwrap_or(USUAL_COUNT),
        });
    }
    let choice = choice(&given);
    if given.library {
        return no_program.then_some(Task::Library { choice });
    }
    let program = given.program?;
    if let Some(folder) = given.stored {
        let alone = given.seed.is_none() && given.count.is_none() && given.seconds.is_none();
        return alone.then_some(Task::Stored { folder, program });
    }
    Some(Task::Random { choice, program })
}

fn choice(given: &Given) -> Choice {
    // A time alone means as many files as it allows.
    let usual = match given.seconds {
        Some(_) => u64::MAX,
        None => USUAL_COUNT,
    };
    Choice {
        seed: given.seed.unwrap_or(USUAL_SEED),
        count: given.count.unwrap_or(usual),
        time: given.seconds.map(Duration::from_secs),
    }
}

fn number(word: Option<OsString>) -> Result<u64, String> {
    let word = word.ok_or(USAGE.to_string())?;
    let said = word.to_string_lossy();
    said.parse()
        .map_err(|_| format!("expected a number, found `{said}`\n{USAGE}"))
}

fn folder(word: Option<OsString>) -> Result<PathBuf, String> {
    word.map(PathBuf::from).ok_or(USAGE.to_string())
}

fn usage(word: &str) -> String {
    format!("`{word}` is not known\n{USAGE}")
}

#[cfg(test)]
mod tests {
    use super::*;

    fn asked(line: &str) -> Result<Task, String> {
        read(line.split_whitespace().map(OsString::from))
    }

    #[test]
    fn the_program_alone_is_enough() {
        let choice = Choice {
            seed: USUAL_SEED,
            count: USUAL_COUNT,
            time: None,
        };
        let program = PathBuf::from("x");
        let task = Task::Random { choice, program };
        assert_eq!(asked("x"), Ok(task));
    }

    #[test]
    fn all_can_be_set() {
        let choice = Choice {
            seed: 5,
            count: u64::MAX,
            time: Some(Duration::from_secs(9)),
        };
        let program = PathBuf::from("x");
        let task = Task::Random { choice, program };
        assert_eq!(asked("--seed 5 x --seconds 9"), Ok(task));
        let task = Task::Stored {
            folder: PathBuf::from("runs"),
            program: PathBuf::from("x"),
        };
        assert_eq!(asked("--stored runs x"), Ok(task));
    }

    #[test]
    fn the_library_needs_no_program() {
        let choice = Choice {
            seed: USUAL_SEED,
            count: USUAL_COUNT,
            time: None,
        };
        assert_eq!(asked("--library"), Ok(Task::Library { choice }));
        let choice = Choice {
            seed: 5,
            count: 9,
            time: Some(Duration::from_secs(1)),
        };
        let task = Task::Library { choice };
        assert_eq!(asked("--seconds 1 --seed 5 --library --count 9"), Ok(task));
    }

    #[test]
    fn faults_need_no_program() {
        let usual = Task::Faults {
            seed: USUAL_SEED,
            count: USUAL_COUNT,
        };
        assert_eq!(asked("--faults"), Ok(usual));
        let task = Task::Faults { seed: 5, count: 9 };
        assert_eq!(asked("--count 9 --faults --seed 5"), Ok(task));
    }

    #[test]
    fn other_words_are_refused() {
        for line in [
            "",
            "x y",
            "--seed x",
            "--seed",
            "--count -1 x",
            "--fast x",
            "--stored runs",
            "--stored runs --seed 1 x",
            "x --stored",
            "--faults x",
            "--faults --seconds 1",
            "--faults --stored runs",
            "--faults --library",
            "--library x",
            "--library --stored runs",
        ] {
            assert!(asked(line).is_err(), "{line}");
        }
    }
}
