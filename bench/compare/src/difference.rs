//! A difference found: made small, kept and printed.

use crate::make::Made;
use crate::program::Prints;
use crate::shrink::shrink;
use reference::RunFile;
use std::fs;
use std::path::Path;
use std::time::{Duration, Instant};

/// Shrinking ends then with what it has: each try may take a program that
/// hangs to the end of its time.
const LONGEST: Duration = Duration::from_secs(60);

/// Shrinks a file that differs, keeps it, and gives what there is to say about it.
pub fn told(prints: &Prints, made: &Made, kept_as: &Path) -> Result<String, String> {
    let small = small(prints, made).bytes();
    let name = kept_as.display();
    fs::write(kept_as, &small).map_err(|error| format!("cannot write {name}: {error}"))?;
    let expected = reference::run(&small);
    let given = prints(&small)?;
    let mut text = format!("shrunk to {} bytes, kept as {name}:\n", small.len());
    text.push_str(&content(&small));
    if let Some(difference) = runtext::difference::first(&expected, &given) {
        text.push_str(&difference.words("reference", "program  "));
        if let (Some(step), Some(file)) = (difference.step, reference::parse(&small)) {
            text.push_str(&in_words(&file, step));
        }
    }
    Ok(text)
}

// The flaw stays as it is; the file around it shrinks.
fn small(prints: &Prints, made: &Made) -> Made {
    let start = Instant::now();
    let differs = |bytes: &[u8]| {
        let in_time = start.elapsed() < LONGEST;
        in_time && prints(bytes).is_ok_and(|given| given != reference::run(bytes))
    };
    let flaw = made.flaw.clone();
    let file = shrink(&made.file, &mut |tried| differs(&flaw.bytes(tried)));
    Made { file, flaw }
}

// Bytes whose counts do not fit have no text, so they are shown as they are.
fn content(bytes: &[u8]) -> String {
    if let Some(file) = runtext::layout(bytes) {
        return runtext::to_text(&file);
    }
    let shown: Vec<String> = bytes.iter().map(|byte| format!("{byte:02X}")).collect();
    format!("no layout of a run file: {}\n", shown.join(" "))
}

// The reference's line of that step, after one line on the whole file.
fn in_words(file: &RunFile, step: usize) -> String {
    match runtext::show(file).lines().nth(step + 1) {
        Some(line) => format!("  in words:  {line}\n"),
        None => String::new(),
    }
}
