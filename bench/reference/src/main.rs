//! The run program: prints the whole output of one run file.

use std::env;
use std::ffi::OsString;
use std::fs;
use std::io::{self, Read, Write};
use std::process::ExitCode;

/// The exit status when the run file cannot be read or its output cannot be written.
const FAILED: u8 = 2;

fn main() -> ExitCode {
    let mut arguments = env::args_os().skip(1);
    let name = arguments.next();
    if arguments.next().is_some() {
        return fail("give one run file, or none to read it from standard input");
    }
    let bytes = match read_run_file(name.as_ref()) {
        Ok(bytes) => bytes,
        Err(message) => return fail(&message),
    };
    let text = reference::run(&bytes);
    match io::stdout().write_all(text.as_bytes()) {
        Ok(()) => ExitCode::SUCCESS,
        Err(error) => fail(&format!("cannot write the output: {error}")),
    }
}

fn read_run_file(name: Option<&OsString>) -> Result<Vec<u8>, String> {
    let Some(name) = name else {
        let mut bytes = Vec::new();
        let read = io::stdin().read_to_end(&mut bytes);
        return match read {
            Ok(_) => Ok(bytes),
            Err(error) => Err(format!("cannot read standard input: {error}")),
        };
    };
    fs::read(name).map_err(|error| format!("cannot open {}: {error}", name.to_string_lossy()))
}

fn fail(message: &str) -> ExitCode {
    eprintln!("reference: {message}");
    ExitCode::from(FAILED)
}
