//! A whole run in words.

use crate::words;
use reference::{Machine, RunFile};

const WORDS_COLUMN: usize = 22;

/// Every step as the reference does it: the line the run program prints, and
/// beside it the step and its outcome in words.
pub fn show(file: &RunFile) -> String {
    let mut slot = Machine::new(file.memory.clone(), file.card.clone());
    let mut text = format!(
        "memory {} bytes, {} steps, card {} bytes\n",
        file.memory.len(),
        file.steps.len(),
        file.card.len()
    );
    for (place, step) in file.steps.iter().enumerate() {
        let asked = words::asked(step, &slot);
        let seen = slot.step(step);
        let line = format!(
            "{place} {} {:08X} {}",
            seen.answer, seen.value, seen.line as u8
        );
        text.push_str(&format!("{line:WORDS_COLUMN$} {asked}"));
        let outcome = words::outcome(step, &seen);
        if !outcome.is_empty() {
            text.push_str(&format!(" -> {outcome}"));
        }
        text.push('\n');
    }
    text
}
