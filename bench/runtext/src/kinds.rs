//! The step kinds of a run file and the words that stand for them.

use reference::Step;

pub const WRITE: u8 = 0;
pub const READ: u8 = 1;
pub const IN: u8 = 2;
pub const OUT: u8 = 3;
pub const RESPONSE: u8 = 4;
pub const GIVEN: u8 = 5;
pub const TAKEN: u8 = 6;
pub const BUSY_OVER: u8 = 7;
pub const DATA_ERROR: u8 = 8;
pub const LEVEL: u8 = 9;
pub const TURN: u8 = 10;

/// The kinds that are one fixed phrase and use no field.
pub const PHRASES: [(u8, &str); 6] = [
    (IN, "in"),
    (OUT, "out"),
    (GIVEN, "given"),
    (TAKEN, "taken"),
    (BUSY_OVER, "busy over"),
    (TURN, "turn"),
];

/// The details of a response, from 0.
pub const RESPONSES: [&str; 5] = ["good", "timeout", "crc", "end", "index"];

/// The details of a data error, from 0.
pub const DATA_ERRORS: [&str; 3] = ["timeout", "crc", "end"];

/// A step of which only the kind is used.
pub fn plain(kind: u8) -> Step {
    Step {
        kind,
        detail: 0,
        offset: 0,
        words: [0; 4],
    }
}

/// A step that uses its kind and detail.
pub fn detailed(kind: u8, detail: u8) -> Step {
    Step {
        detail,
        ..plain(kind)
    }
}

/// A write of `value` at `offset`.
pub fn write(offset: u16, width: u8, value: u32) -> Step {
    Step {
        offset,
        words: [value, 0, 0, 0],
        ..detailed(WRITE, width)
    }
}

/// A read at `offset`.
pub fn read(offset: u16, width: u8) -> Step {
    Step {
        offset,
        ..detailed(READ, width)
    }
}

/// A response; all four words count, whatever its type stores.
pub fn response(detail: u8, words: [u32; 4]) -> Step {
    Step {
        words,
        ..detailed(RESPONSE, detail)
    }
}
