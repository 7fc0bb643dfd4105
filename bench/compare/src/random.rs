//! Random files through the program and through the reference.

use crate::program::Prints;
use crate::tally::Tally;
use crate::{difference, make, Score};
use std::path::Path;
use std::time::{Duration, Instant};

const UNREACHABLE: &str =
    "           answer 11 cannot be met: a run file holds too little memory for it";

/// Which files to compare.
#[derive(Clone, Copy, Debug, PartialEq, Eq)]
pub struct Choice {
    pub seed: u64,
    pub count: u64,
    pub time: Option<Duration>,
}

/// Compares files until there are enough, time is up, or one differs; that one
/// is kept, made small, under the given name.
pub fn compare(prints: &Prints, choice: Choice, kept_as: &Path) -> Result<Score, String> {
    let Choice { seed, count, time } = choice;
    let start = Instant::now();
    let mut tally = Tally::default();
    for number in 0..count {
        if time.is_some_and(|time| start.elapsed() >= time) {
            return Ok(counted(&tally, number));
        }
        let made = make::file(seed, number);
        let bytes = made.bytes();
        if prints(&bytes)? != reference::run(&bytes) {
            println!("seed {seed}, file {number} differs");
            print!("{}", difference::told(prints, &made, kept_as)?);
            return Ok(Score {
                passed: number,
                failed: 1,
            });
        }
        tally.count(&bytes);
    }
    Ok(counted(&tally, count))
}

// A comparison that has not met everything shows too little to be passed.
fn counted(tally: &Tally, files: u64) -> Score {
    let items = crate::items::all();
    println!("{files} files compared; met:");
    print!("{}", tally.table(&items));
    println!("{UNREACHABLE}");
    let missing = tally.missing(&items);
    for item in &missing {
        println!("never met: {item}");
    }
    Score {
        passed: files + (items.len() - missing.len()) as u64,
        failed: missing.len() as u64,
    }
}

#[cfg(test)]
mod tests {
    use super::*;
    use std::path::PathBuf;

    fn choice(count: u64) -> Choice {
        Choice {
            seed: 3,
            count,
            time: None,
        }
    }

    #[test]
    fn the_reference_agrees_with_itself() {
        let prints = |bytes: &[u8]| Ok(reference::run(bytes));
        let score = compare(&prints, choice(60), Path::new("unused")).unwrap();
        assert!(score.passed > 60);
    }

    #[test]
    fn few_files_meet_too_little() {
        let prints = |bytes: &[u8]| Ok(reference::run(bytes));
        assert!(
            compare(&prints, choice(1), Path::new("unused"))
                .unwrap()
                .failed
                > 0
        );
    }

    #[test]
    fn time_ends_it() {
        let prints = |_: &[u8]| Err("asked".to_string());
        let choice = Choice {
            time: Some(Duration::ZERO),
            ..choice(u64::MAX)
        };
        assert_eq!(
            compare(&prints, choice, Path::new("unused"))
                .unwrap()
                .passed,
            0
        );
    }

    #[test]
    fn a_wrong_line_is_found_kept_and_small() {
        // Wrong from the first refusal on: an event out of turn answered with 8.
        let prints =
            |bytes: &[u8]| Ok(reference::run(bytes).replace(" 7 00000000 ", " 8 00000000 "));
        let kept: PathBuf = std::env::temp_dir().join(format!("kept-{}.run", std::process::id()));
        let score = compare(&prints, choice(60), &kept).unwrap();
        let small = std::fs::read(&kept).unwrap();
        std::fs::remove_file(&kept).unwrap();
        assert_eq!(score.failed, 1);
        assert_eq!(small.len(), 12 + 20, "one step, no memory, no card");
    }
}
