//! From run file to text.

use crate::{kinds, names, number};
use reference::{RunFile, Step};

/// Zeros shorter than this are written out like other bytes.
const ZEROS_WORTH_A_WORD: usize = 16;
const BYTES_A_LINE: usize = 16;
const COMMENT_COLUMN: usize = 40;
const BYTES_COMMENT_COLUMN: usize = 56;

/// The text of a run file; `to_file` gives the file back.
pub fn to_text(file: &RunFile) -> String {
    let mut text = String::new();
    section("memory", &file.memory, &mut text);
    section("card", &file.card, &mut text);
    for (place, step) in file.steps.iter().enumerate() {
        let said = step_text(step);
        let comment = match name_of(step) {
            Some(name) => format!("{place}: {name}"),
            None => place.to_string(),
        };
        text.push_str(&format!("{said:COMMENT_COLUMN$} # {comment}\n"));
    }
    text
}

fn name_of(step: &Step) -> Option<String> {
    match step.kind {
        kinds::WRITE | kinds::READ => names::reached(step.offset, step.detail),
        _ => None,
    }
}

fn section(name: &str, bytes: &[u8], text: &mut String) {
    let mut at = 0;
    while at < bytes.len() {
        let rest = &bytes[at..];
        let zeros = rest.iter().take_while(|byte| **byte == 0).count();
        let (said, count) = if zeros >= ZEROS_WORTH_A_WORD {
            (format!("{name} zeros {zeros}"), zeros)
        } else {
            let row = &rest[..rest.len().min(BYTES_A_LINE)];
            (format!("{name} {}", spaced(row)), row.len())
        };
        text.push_str(&format!("{said:BYTES_COMMENT_COLUMN$} # {at:04X}h\n"));
        at += count;
    }
}

fn spaced(bytes: &[u8]) -> String {
    let shown: Vec<String> = bytes.iter().map(|byte| format!("{byte:02X}")).collect();
    shown.join(" ")
}

/// One step as a line of the notation. A step that has a field its kind does
/// not use, or no kind at all, has only the raw form.
pub fn step_text(step: &Step) -> String {
    match friendly(step) {
        Some((said, meant)) if meant == *step => said,
        _ => raw(step),
    }
}

// The friendly line, with the step it stands for: where they differ, the line
// would lose a field.
fn friendly(step: &Step) -> Option<(String, Step)> {
    let [first, ..] = step.words;
    Some(match step.kind {
        kinds::WRITE => (
            format!("write {} {}", place(step), number::show(first)),
            kinds::write(step.offset, step.detail, first),
        ),
        kinds::READ => (
            format!("read {}", place(step)),
            kinds::read(step.offset, step.detail),
        ),
        kinds::RESPONSE => (
            format!("response {}", response(step)),
            kinds::response(step.detail, step.words),
        ),
        kinds::DATA_ERROR => (
            format!("error {}", named(step.detail, &kinds::DATA_ERRORS)),
            kinds::detailed(step.kind, step.detail),
        ),
        kinds::LEVEL if step.detail < 2 => (
            format!("level {}", step.detail),
            kinds::detailed(step.kind, step.detail),
        ),
        kind => {
            let (_, said) = kinds::PHRASES.iter().find(|phrase| phrase.0 == kind)?;
            (said.to_string(), kinds::plain(kind))
        }
    })
}

fn place(step: &Step) -> String {
    format!("{:03X}h/{}", step.offset, step.detail)
}

// Words that are 0 at the end are left away.
fn response(step: &Step) -> String {
    let last = step.words.iter().rposition(|word| *word != 0);
    let used = &step.words[..last.map_or(0, |last| last + 1)];
    let mut said = vec![named(step.detail, &kinds::RESPONSES)];
    said.extend(used.iter().map(|word| number::show(*word)));
    said.join(" ")
}

fn named(detail: u8, names: &[&str]) -> String {
    match names.get(detail as usize) {
        Some(name) => name.to_string(),
        None => detail.to_string(),
    }
}

fn raw(step: &Step) -> String {
    let words = step.words.map(number::show).join(" ");
    format!(
        "raw {} {} {} {words}",
        step.kind,
        step.detail,
        number::show(step.offset as u32)
    )
}
