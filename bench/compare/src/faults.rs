//! Whether the comparison would find a fault: the reference with a rule broken, against itself by
//! the text of a run, and against the library by all that can be seen of a slot.

use crate::{library, make, Score};
use reference::Fault;

/// How a fault was looked for.
#[derive(Clone, Copy, Debug, PartialEq, Eq)]
enum Found {
    /// The first file that shows it.
    At(u64),
    Never,
    /// It breaks a rule that this way does not show.
    Unseen,
}

/// A fault, by the text and through the library.
struct Row {
    fault: Fault,
    text: Found,
    library: Found,
}

/// Looks for every fault in the files a comparison would take, and prints a row for each.
pub fn compare(seed: u64, count: u64) -> Score {
    let rows = search(seed, count);
    print!("{}", table(&rows));
    let found = || rows.iter().flat_map(|row| [row.text, row.library]);
    let times = |wanted: fn(&Found) -> bool| found().filter(wanted).count() as u64;
    Score {
        passed: times(|found| matches!(found, Found::At(_))),
        failed: times(|found| *found == Found::Never),
    }
}

impl Row {
    fn new(fault: Fault) -> Row {
        let open = |unseen| if unseen { Found::Unseen } else { Found::Never };
        Row {
            fault,
            text: open(of_lent_bytes(fault)),
            library: open(of_files(fault)),
        }
    }
}

// The library is given steps, not files, so it has no part in the rules of files.
fn of_files(fault: Fault) -> bool {
    fault == Fault::LevelTwo
}

// A run prints no byte that was moved, and always lends the same room and memory.
fn of_lent_bytes(fault: Fault) -> bool {
    matches!(
        fault,
        Fault::LastByteLost | Fault::ShortRoomFilled | Fault::MemoryUnbounded
    )
}

fn search(seed: u64, count: u64) -> Vec<Row> {
    let mut rows: Vec<Row> = Fault::ALL.into_iter().map(Row::new).collect();
    for number in 0..count {
        let open = |row: &Row| row.text == Found::Never || row.library == Found::Never;
        if !rows.iter().any(open) {
            break;
        }
        look(&mut rows, seed, number);
    }
    rows
}

// One file for all the faults that are still to be found.
fn look(rows: &mut [Row], seed: u64, number: u64) {
    let bytes = make::file(seed, number).bytes();
    let expected = reference::run(&bytes);
    for row in rows {
        let broken = || reference::run_with(&bytes, Some(row.fault));
        if row.text == Found::Never && broken() != expected {
            row.text = Found::At(number);
        }
        if row.library == Found::Never && library::shows(row.fault, seed, number) {
            row.library = Found::At(number);
        }
    }
}

fn table(rows: &[Row]) -> String {
    let mut text = "| fault | by the text | through the library |\n|---|---|---|\n".to_string();
    for row in rows {
        let (words, by_text) = (row.fault.words(), place(row.text));
        let by_library = place(row.library);
        text.push_str(&format!("| {words} | {by_text} | {by_library} |\n"));
    }
    text
}

fn place(found: Found) -> String {
    match found {
        Found::At(number) => format!("found at file number {number}"),
        Found::Never => "never found".to_string(),
        Found::Unseen => "cannot be seen".to_string(),
    }
}

#[cfg(test)]
mod tests {
    use super::*;
    use crate::options::{USUAL_COUNT, USUAL_SEED};

    /// Far fewer files than a comparison takes.
    const FEW: u64 = 100;

    #[test]
    fn every_fault_is_found_wherever_it_can_be_seen() {
        for row in search(USUAL_SEED, USUAL_COUNT) {
            let words = row.fault.words();
            assert_ne!(row.text, Found::Never, "{words}");
            assert_ne!(row.library, Found::Never, "{words}");
            let by_one = [row.text, row.library].contains(&Found::Unseen);
            let of_one = of_files(row.fault) || of_lent_bytes(row.fault);
            assert_eq!(by_one, of_one, "{words}");
        }
    }

    #[test]
    fn few_files_show_every_fault_of_the_slot() {
        // A file that is bad by its level alone is rare.
        for seed in 1..=5 {
            for row in search(seed, FEW) {
                let rare = row.fault == Fault::LevelTwo;
                let words = row.fault.words();
                assert!(rare || row.text != Found::Never, "seed {seed}: {words}");
                assert_ne!(row.library, Found::Never, "seed {seed}: {words}");
            }
        }
    }

    #[test]
    fn a_fault_that_the_text_cannot_show_leaves_it_the_same() {
        for fault in Fault::ALL.into_iter().filter(|f| of_lent_bytes(*f)) {
            for number in 0..FEW {
                let bytes = make::file(1, number).bytes();
                let same = reference::run_with(&bytes, Some(fault)) == reference::run(&bytes);
                assert!(same, "{fault:?} at file {number}");
            }
        }
    }

    #[test]
    fn the_file_named_is_the_first_that_differs() {
        for row in search(1, FEW) {
            let Found::At(last) = row.text else { continue };
            for number in 0..=last {
                let bytes = make::file(1, number).bytes();
                let same = reference::run_with(&bytes, Some(row.fault)) == reference::run(&bytes);
                assert_eq!(same, number != last, "{:?} at file {number}", row.fault);
            }
        }
    }

    #[test]
    fn without_files_none_is_found() {
        let rows = search(1, 0);
        let faults = Fault::ALL.len();
        assert_eq!(rows.len(), faults);
        let never = 2 * faults - 4;
        assert_eq!(table(&rows).matches("never found").count(), never);
        let score = compare(1, 0);
        assert_eq!((score.passed, score.failed), (0, never as u64));
    }
}
