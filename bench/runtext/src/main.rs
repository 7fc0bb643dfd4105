//! Run files to text and back, and a run in words.
//!
//! Exit status 0: done; 1: the expected output differs; 2: a file cannot be
//! read or written or is bad, or the words of the call are wrong.

mod files;

use reference::RunFile;
use std::env;
use std::ffi::OsString;
use std::io::{self, ErrorKind, Write};
use std::path::Path;
use std::process::ExitCode;

const USAGE: &str = "usage: runtext to-file TEXT FILE     makes a run file of a text
       runtext to-text FILE          prints the text of a run file
       runtext show FILE [EXPECTED]  prints a run in words, and the first step
                                     whose line in EXPECTED is another";

fn main() -> ExitCode {
    let words: Vec<OsString> = env::args_os().skip(1).collect();
    match run(&words) {
        Ok(same) => ExitCode::from(if same { 0 } else { 1 }),
        Err(message) => {
            eprintln!("{message}");
            ExitCode::from(2)
        }
    }
}

// Gives whether all was as expected.
fn run(words: &[OsString]) -> Result<bool, String> {
    let verb = words.first().and_then(|word| word.to_str());
    let names: Vec<&Path> = words.iter().skip(1).map(Path::new).collect();
    match (verb, names.as_slice()) {
        (Some("to-file"), [text, file]) => to_file(text, file),
        (Some("to-text"), [file]) => print(&runtext::to_text(&open(file)?)),
        (Some("show"), [file]) => print(&runtext::show(&open(file)?)),
        (Some("show"), [file, expected]) => check(file, expected),
        _ => Err(USAGE.to_string()),
    }
}

fn to_file(text: &Path, file: &Path) -> Result<bool, String> {
    let said = files::read_text(text)?;
    let made = runtext::to_file(&said).map_err(|fault| format!("{}: {fault}", text.display()))?;
    if files::same(text, file) {
        return Err(format!("{} is the text itself", file.display()));
    }
    files::write(file, &reference::encode(&made))?;
    Ok(true)
}

fn check(file: &Path, expected: &Path) -> Result<bool, String> {
    let run = open(file)?;
    let expected = files::read_text(expected)?;
    print(&runtext::show(&run))?;
    let given = reference::run(&reference::encode(&run));
    match runtext::difference::first(&expected, &given) {
        None => print("as expected\n"),
        Some(difference) => {
            print(&difference.words("expected ", "reference"))?;
            Ok(false)
        }
    }
}

fn open(file: &Path) -> Result<RunFile, String> {
    let bytes = files::read(file)?;
    reference::parse(&bytes).ok_or_else(|| {
        let why = runtext::why_bad(&bytes);
        format!("{}: bad file: {why}", file.display())
    })
}

// A reader that has seen enough and closed the pipe is no error.
fn print(text: &str) -> Result<bool, String> {
    let mut out = io::stdout().lock();
    match out.write_all(text.as_bytes()).and_then(|()| out.flush()) {
        Err(error) if error.kind() != ErrorKind::BrokenPipe => {
            Err(format!("cannot print: {error}"))
        }
        _ => Ok(true),
    }
}
