//! What the steps of the proved library cost, side by side with the reference and with plain
//! copies of the same bytes, measured in one run and printed as tables.

mod clock;
mod host;
mod scene;
mod side;
mod stack;
mod steps;
mod tables;
mod transfers;

use std::env;
use std::process::ExitCode;

const USAGE: &str = "usage: speed [--rounds N]";

/// Rounds in which each contender has its turn; the best of them counts.
const USUAL_ROUNDS: usize = 400;

fn main() -> ExitCode {
    let words: Vec<String> = env::args().skip(1).collect();
    let Some(rounds) = rounds(&words) else {
        eprintln!("{USAGE}");
        return ExitCode::from(2);
    };
    println!("On {}; the best of {rounds} rounds.\n", host::words());
    println!("{}", tables::operations(rounds));
    println!("{}", tables::lengths(rounds));
    print!("{}", tables::sizes());
    ExitCode::SUCCESS
}

fn rounds(words: &[String]) -> Option<usize> {
    match words {
        [] => Some(USUAL_ROUNDS),
        [option, number] if option == "--rounds" => number.parse().ok().filter(|n| *n > 0),
        _ => None,
    }
}
