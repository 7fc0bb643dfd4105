//! What needs no slot: surveys, the boot check, lines written and read.

use crate::answer::{Answer, Number};
use crate::raw::{self, RawLine};

/// How a survey ends.
#[derive(Clone, Copy, Debug, PartialEq, Eq)]
pub enum Kind {
    Well,
    Error,
    Limit,
}

/// What a survey tells of a table; all zero if its number is not 0.
#[derive(Clone, Copy, Debug, PartialEq, Eq)]
pub struct Survey {
    pub number: Number,
    pub kind: Kind,
    /// The byte for 054h.
    pub state: u8,
    pub lines: u32,
    pub bytes: u32,
    pub after: u32,
}

/// What the boot check says.
#[derive(Clone, Copy, Debug, PartialEq, Eq)]
pub struct Boot {
    pub number: Number,
    pub yes: bool,
}

/// A descriptor line: its five flags, how many bytes it names, and an address.
#[derive(Clone, Copy, Debug, PartialEq, Eq)]
pub struct Line {
    pub valid: bool,
    pub end: bool,
    pub int: bool,
    pub act1: bool,
    pub act2: bool,
    pub length: u32,
    pub address: u32,
}

/// Follows a table over memory, for at most `limit` lines (0 stands for 64).
pub fn survey(memory: &[u8], start: u32, owed: u32, limit: u32) -> Survey {
    let s = unsafe { raw::sdhc_survey(memory.as_ptr(), memory.len(), start, owed, limit) };
    Survey {
        number: Number::from_raw(s.number),
        kind: match s.kind {
            0 => Kind::Well,
            1 => Kind::Error,
            _ => Kind::Limit,
        },
        state: s.state as u8,
        lines: s.lines,
        bytes: s.bytes,
        after: s.after,
    }
}

/// Would a transfer of so many bytes go well, within 64 lines?
pub fn boot_check(memory: &[u8], start: u32, owed: u32) -> Boot {
    let b = unsafe { raw::sdhc_boot_check(memory.as_ptr(), memory.len(), start, owed) };
    Boot {
        number: Number::from_raw(b.number),
        yes: b.yes != 0,
    }
}

/// Writes a line into eight bytes.
pub fn write_line(room: &mut [u8], line: Line) -> Answer {
    let raw = RawLine {
        valid: line.valid as u8,
        end: line.end as u8,
        int: line.int as u8,
        act1: line.act1 as u8,
        act2: line.act2 as u8,
        length: line.length,
        address: line.address,
    };
    Answer::from_raw(unsafe { raw::sdhc_write_line(room.as_mut_ptr(), room.len(), raw) })
}

/// Reads a line; a part that has not eight bytes reads as zeros.
pub fn read_line(bytes: &[u8]) -> Line {
    let raw = unsafe { raw::sdhc_read_line(bytes.as_ptr(), bytes.len()) };
    Line {
        valid: raw.valid != 0,
        end: raw.end != 0,
        int: raw.int != 0,
        act1: raw.act1 != 0,
        act2: raw.act2 != 0,
        length: raw.length,
        address: raw.address,
    }
}
