//! What is held against each other after a step: everything that can be seen of both sides.

use super::run::Run;
use super::spelling::is_plain;
use reference::{Machine, Seen};
use sdhc::{Record, Slot, BLOCK};

/// A running transfer, and a read, in the library's record.
const RUNS: u8 = 2;
const READ: u8 = 0;

/// What a step must not change by itself.
pub struct Before {
    record: Record,
    buffer: [u8; BLOCK],
}

impl Before {
    pub fn of(slot: &Slot) -> Before {
        Before {
            record: *slot.record(),
            buffer: *slot.buffer(),
        }
    }

    /// A refusal changes nothing, to the byte.
    pub fn is_kept(&self, slot: &Slot) -> Result<(), String> {
        if *slot.record() != self.record {
            return Err("the record is changed by a step that was refused".to_string());
        }
        match *slot.buffer() == self.buffer {
            true => Ok(()),
            false => Err("the buffer is changed by a step that was refused".to_string()),
        }
    }

    /// A record that a step has changed is spelled as the library does it.
    pub fn is_spelled(&self, slot: &Slot) -> Result<(), String> {
        match *slot.record() == self.record || is_plain(slot.record()) {
            true => Ok(()),
            false => Err(format!(
                "the record tells what its tags do not speak of: {:?}",
                slot.record()
            )),
        }
    }

    // Outside of the bytes that the step put into the buffer, it is as it was.
    fn is_kept_around(&self, slot: &Slot, moved: u32) -> Result<(), String> {
        let (first, end) = self.filled(moved as usize);
        let now = slot.buffer();
        let kept = now[..first] == self.buffer[..first] && now[end..] == self.buffer[end..];
        match kept {
            true => Ok(()),
            false => Err("the buffer is changed outside of what it was given".to_string()),
        }
    }

    // Where bytes are put: behind what a write holds, or at the front of an empty buffer in a
    // read. The bytes of a move that ends badly are no content any more, but lie there.
    fn filled(&self, moved: usize) -> (usize, usize) {
        let (first, end) = held(&self.record);
        match (self.record.dat.tag, self.record.dat.way) {
            (RUNS, READ) if first == end => (0, moved.min(BLOCK)),
            (RUNS, READ) => (0, 0),
            (RUNS, _) => (end, (end + moved).min(BLOCK)),
            _ => (0, 0),
        }
    }
}

// Where the content of the buffer lies: a write fills it from the front, a read empties it
// towards the end of the block.
fn held(record: &Record) -> (usize, usize) {
    let dat = &record.dat;
    if dat.tag != RUNS {
        return (0, 0);
    }
    let size = usize::from(dat.size).min(BLOCK);
    let held = (dat.held as usize).min(size);
    match dat.way {
        READ => (size - held, size),
        _ => (0, held),
    }
}

/// Holds both sides against each other after a step that the reference shows.
pub fn at(run: &mut Run, machine: &Machine, seen: &Seen, before: &Before) -> Result<(), String> {
    let line = seen.line;
    if run.slot.line() != line {
        return Err(format!("the line: library {}, reference {line}", !line));
    }
    registers(&mut run.slot, machine)?;
    same_bytes("memory", &run.memory, machine.memory())?;
    before.is_kept_around(&run.slot, seen.value)?;
    before.is_spelled(&run.slot)?;
    let (first, end) = held(run.slot.record());
    same_bytes(
        "the buffer",
        &run.slot.buffer()[first..end],
        machine.buffer(),
    )?;
    same_bytes("the room", &run.room, machine.taken())
}

// Every word of the block is read, which must have no effect.
fn registers(slot: &mut Slot, machine: &Machine) -> Result<(), String> {
    let before = *slot.record();
    for offset in (0..0x100).step_by(4) {
        let mut word = [0; 4];
        let answer = slot.mmio_read(u64::from(offset), &mut word);
        let (given, expected) = (u32::from_le_bytes(word), machine.peek(offset));
        if !answer.done() || given != expected {
            let number = answer.number as u32;
            return Err(format!(
                "{offset:03X}h: library {given:08X}h with answer {number}, reference {expected:08X}h"
            ));
        }
    }
    match *slot.record() == before {
        true => Ok(()),
        false => Err("the record is changed by reads".to_string()),
    }
}

/// Two runs of bytes, or the first place at which they part.
pub fn same_bytes(name: &str, library: &[u8], reference: &[u8]) -> Result<(), String> {
    if library == reference {
        return Ok(());
    }
    if library.len() != reference.len() {
        let (left, right) = (library.len(), reference.len());
        return Err(format!("{name}: library {left} bytes, reference {right}"));
    }
    let parted = library.iter().zip(reference).position(|(l, r)| l != r);
    let at = parted.unwrap_or(0);
    Err(format!(
        "{name} at {at:X}h: library {:02X}h, reference {:02X}h",
        library[at], reference[at]
    ))
}

#[cfg(test)]
mod tests {
    use super::*;

    #[test]
    fn the_first_byte_that_differs_is_told() {
        assert_eq!(same_bytes("x", &[1, 2], &[1, 2]), Ok(()));
        let told = same_bytes("x", &[1, 2, 3], &[1, 5, 4]).unwrap_err();
        assert_eq!(told, "x at 1h: library 02h, reference 05h");
        let told = same_bytes("x", &[1], &[]).unwrap_err();
        assert_eq!(told, "x: library 1 bytes, reference 0");
    }

    #[test]
    fn the_content_lies_at_the_front_of_a_write_and_the_end_of_a_read() {
        let mut record = *Slot::power_on().record();
        assert_eq!(held(&record), (0, 0));
        record.dat.tag = RUNS;
        record.dat.size = 24;
        record.dat.held = 8;
        record.dat.way = 1;
        assert_eq!(held(&record), (0, 8));
        record.dat.way = READ;
        assert_eq!(held(&record), (16, 24));
        record.dat.size = 600;
        record.dat.held = 1_000;
        assert_eq!(held(&record), (0, 512));
    }
}
