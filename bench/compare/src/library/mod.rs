//! The library and the reference in one process: the same run files, step by step, with all of
//! both held against each other after each step, and what no run file can ask for.

mod lines;
mod look;
mod met;
mod odd;
mod pair;
mod records;
mod run;
mod spelling;
mod tables;

use crate::chance::Chance;
use crate::random::Choice;
use crate::tally::Tally;
use crate::{items, make, Score};
use met::Met;
use odd::{Lent, Odds};
use pair::Pair;
use reference::{Fault, RunFile};
use std::time::Instant;

/// What has been met so far, and the memory lent for it.
struct World {
    tally: Tally,
    met: Met,
    lent: Lent,
}

impl World {
    fn new() -> World {
        World {
            tally: Tally::default(),
            met: Met::default(),
            lent: Lent::new(),
        }
    }
}

/// Compares files until there are enough, time is up, or one differs, which is then told.
pub fn compare(choice: Choice) -> Score {
    let Choice { seed, count, time } = choice;
    let start = Instant::now();
    let mut world = World::new();
    for number in 0..count {
        if time.is_some_and(|time| start.elapsed() >= time) {
            return counted(&world, number);
        }
        if let Err(told) = file(&mut world, seed, number) {
            println!("seed {seed}, file {number}, {told}");
            return Score {
                passed: number,
                failed: 1,
            };
        }
    }
    counted(&world, count)
}

/// Whether a fault of the reference shows in a file when it is driven beside the library.
pub fn shows(fault: Fault, seed: u64, number: u64) -> bool {
    let bytes = make::file(seed, number).bytes();
    let Some(file) = reference::parse(&bytes) else {
        return false;
    };
    let mut chance = beside(seed, number);
    driven(&mut World::new(), &file, &mut chance, Some(fault)).is_err()
}

// A file, and what goes with it. One that is bad has no steps, and only its number counts.
fn file(world: &mut World, seed: u64, number: u64) -> Result<(), String> {
    let bytes = make::file(seed, number).bytes();
    let mut chance = beside(seed, number);
    if let Some(file) = reference::parse(&bytes) {
        driven(world, &file, &mut chance, None)?;
        tables::compare(&file, &mut chance, &world.lent, &mut world.met)?;
    }
    lines::compare(&mut chance, &mut world.met)?;
    records::drive(&mut chance, &mut world.met)
}

// Chance of its own for what is not in the file.
fn beside(seed: u64, number: u64) -> Chance {
    Chance::new(!seed, number)
}

// Every other file goes as it is; the rest with odd steps between.
fn driven(
    world: &mut World,
    file: &RunFile,
    chance: &mut Chance,
    fault: Option<Fault>,
) -> Result<(), String> {
    let mut pair = Pair::new(file, fault);
    let with_odd = chance.bit();
    for (number, step) in file.steps.iter().enumerate() {
        if with_odd {
            let mut odds = Odds {
                pair: &mut pair,
                chance,
                lent: &mut world.lent,
                met: &mut world.met,
            };
            odds.before(step)
                .map_err(|what| format!("before step {number}, {what}"))?;
        }
        let before = pair.machine.peek(0x024);
        let seen = pair
            .step(step)
            .map_err(|what| format!("step {number}, {}: {what}", runtext::step_text(step)))?;
        let after = pair.machine.peek(0x024);
        world.tally.step(step, &seen, before, after);
    }
    Ok(())
}

// A comparison that has not met everything shows too little to be passed.
fn counted(world: &World, files: u64) -> Score {
    let items = items::of_steps();
    println!("{files} files driven through the library; met:");
    print!("{}{}", world.tally.table(&items), world.met.table());
    let missing = world.tally.missing(&items);
    let odd = world.met.missing();
    for item in &missing {
        println!("never met: {item}");
    }
    for words in &odd {
        println!("never met: {words}");
    }
    let failed = (missing.len() + odd.len()) as u64;
    Score {
        passed: files + items.len() as u64 + Met::items() - failed,
        failed,
    }
}

#[cfg(test)]
mod tests {
    use super::*;
    use std::time::Duration;

    fn choice(count: u64) -> Choice {
        Choice {
            seed: 3,
            count,
            time: None,
        }
    }

    #[test]
    fn the_library_agrees() {
        let mut world = World::new();
        for number in 0..60 {
            assert_eq!(file(&mut world, 3, number), Ok(()), "file {number}");
        }
    }

    #[test]
    fn few_files_meet_too_little() {
        assert!(compare(choice(1)).failed > 0);
    }

    #[test]
    fn time_ends_it() {
        let score = compare(Choice {
            time: Some(Duration::ZERO),
            ..choice(u64::MAX)
        });
        assert_eq!(score.passed, 0);
    }

    #[test]
    fn a_fault_shows_and_is_told_with_its_step() {
        let bytes = make::file(1, 0).bytes();
        let file = reference::parse(&bytes).unwrap();
        let fault = Some(Fault::EventNeedsNoEnable);
        let mut chance = beside(1, 0);
        let told = driven(&mut World::new(), &file, &mut chance, fault).unwrap_err();
        assert!(told.contains("step "), "{told}");
        assert!(
            told.contains("library ") && told.contains("reference "),
            "{told}"
        );
    }
}
