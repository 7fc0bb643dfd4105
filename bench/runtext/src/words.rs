//! A step and what became of it, in words.

use crate::access::Access;
use crate::command::Command;
use crate::{interrupts, kinds, names, writer};
use reference::{Machine, Seen, Step};

/// What a step asks, before it is done: its line in the notation, the register
/// by name, and what a command, a reset or an interrupt register is told.
pub fn asked(step: &Step, before: &Machine) -> String {
    let mut said = writer::step_text(step);
    let Some(access) = Access::of(step) else {
        return said;
    };
    if let Some(name) = names::reached(step.offset, step.detail) {
        said.push_str(&format!(" ({name})"));
    }
    if step.kind == kinds::WRITE {
        for note in written(step, &access, before) {
            said.push_str(&format!(": {note}"));
        }
    }
    said
}

fn written(step: &Step, access: &Access, before: &Machine) -> Vec<String> {
    let bits = access.in_group(step.words[0]);
    let mut notes = Vec::new();
    if let Some(command) = Command::of(step, before) {
        notes.push(command.words());
    }
    if access.holds(0x02F) {
        notes.push(reset(bits >> 24));
    }
    match access.group() {
        0x030 => notes.push(format!("acknowledges {}", interrupts::list(bits))),
        0x034 | 0x038 => notes.push(interrupts::list(bits)),
        0x050 => notes.push(format!("forces {}", interrupts::list(bits & 0xFFFF_0000))),
        _ => {}
    }
    notes
}

fn reset(bits: u32) -> String {
    let named: Vec<&str> = [(1, "all"), (2, "CMD"), (4, "DAT")]
        .iter()
        .filter(|(bit, _)| bits & bit != 0)
        .map(|(_, name)| *name)
        .collect();
    if named.is_empty() {
        return "no reset".to_string();
    }
    format!("reset of {}", named.join(" and "))
}

/// What became of a step: the reason of a refusal, or what was read, moved and
/// raised. Empty where there is nothing to say.
pub fn outcome(step: &Step, seen: &Seen) -> String {
    if seen.answer != 0 {
        return format!("refused: {}", reason(seen.answer));
    }
    let mut notes = Vec::new();
    match step.kind {
        kinds::READ => notes.extend(read(step, seen.value)),
        kinds::GIVEN | kinds::TAKEN | kinds::TURN => {
            notes.push(format!("{} bytes", seen.value));
        }
        _ => {}
    }
    if seen.raised != 0 {
        notes.push(format!("raises {}", interrupts::list(seen.raised)));
    }
    if let Some(fault) = seen.fault {
        notes.push(format!("ADMA error {}", adma(fault as u32)));
    }
    notes.join("; ")
}

fn read(step: &Step, value: u32) -> Option<String> {
    let access = Access::of(step)?;
    let bits = access.in_group(value);
    match access.group() {
        0x024 => Some(present_state(bits)),
        0x030 | 0x034 | 0x038 => Some(interrupts::list(bits)),
        0x054 if bits & 0xFF != 0 => Some(adma(bits)),
        _ => None,
    }
}

fn present_state(bits: u32) -> String {
    let named: Vec<&str> = [
        (0, "CMD inhibited"),
        (1, "DAT inhibited"),
        (8, "write"),
        (9, "read"),
        (16, "card in"),
    ]
    .iter()
    .filter(|(bit, _)| bits >> bit & 1 == 1)
    .map(|(_, name)| *name)
    .collect();
    if named.is_empty() {
        return "nothing in use".to_string();
    }
    named.join(", ")
}

fn adma(bits: u32) -> String {
    let mismatch = if bits & 4 == 0 {
        ""
    } else {
        " with Length Mismatch"
    };
    format!("state {:02b}{mismatch}", bits & 3)
}

// The table of the paper, shortened.
fn reason(answer: u32) -> &'static str {
    match answer {
        1 => "the access names no place or the value is too big",
        2 => "the register is held while Command Inhibit (DAT) is 1",
        3 => "Command Inhibit (CMD) is 1",
        4 => "Command Inhibit (DAT) is 1",
        5 => "SD Clock Enable or SD Bus Power is 0",
        6 => "command setting not carried",
        7 => "event out of turn",
        8 => "length other than the block size",
        9 => "response awaited, or buffer full or empty",
        10 => "no transfer, a halted one, or engine stopped",
        11 => "lent memory too long",
        _ => "a number the paper does not have here",
    }
}
