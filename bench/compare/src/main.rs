//! Run files through a program under test, or its library, and through the reference.
//!
//! Exit status 0: all passed; 1: something differs or was never met or found;
//! 2: the comparison could not be made.

mod chance;
mod difference;
mod faults;
mod items;
mod library;
mod make;
mod options;
mod program;
mod random;
mod shrink;
mod stored;
mod tally;

use options::Task;
use program::Program;
use std::env;
use std::path::Path;
use std::process::ExitCode;

/// A difference found is kept in the current folder under this name.
const KEPT_AS: &str = "difference.run";

/// What the last line says.
#[derive(Default)]
pub struct Score {
    pub passed: u64,
    pub failed: u64,
}

fn main() -> ExitCode {
    match options::read(env::args_os().skip(1)).and_then(done) {
        Ok(score) => {
            println!("{} passed, {} failed", score.passed, score.failed);
            ExitCode::from(if score.failed == 0 { 0 } else { 1 })
        }
        Err(message) => {
            eprintln!("{message}");
            ExitCode::from(2)
        }
    }
}

fn done(task: Task) -> Result<Score, String> {
    match task {
        Task::Faults { seed, count } => Ok(faults::compare(seed, count)),
        Task::Library { choice } => Ok(library::compare(choice)),
        Task::Random { choice, program } => {
            let program = Program::new(&program)?;
            let prints = |bytes: &[u8]| program.output(bytes);
            random::compare(&prints, choice, Path::new(KEPT_AS))
        }
        Task::Stored { folder, program } => {
            let program = Program::new(&program)?;
            stored::compare(&|bytes: &[u8]| program.output(bytes), &folder)
        }
    }
}
