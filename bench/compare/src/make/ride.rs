//! A ride: steps made one by one, each with a look at what the last ones did.

use crate::chance::Chance;
use reference::{Machine, RunFile, Seen, Step};
use runtext::kinds;

pub const CMD_INHIBIT: u32 = 1;
pub const DAT_INHIBIT: u32 = 2;
pub const CARD_IN: u32 = 1 << 16;

/// Registers read at the end of every ride: whatever went another way before
/// shows in one of them.
const LAST_LOOK: [u16; 17] = [
    0x000, 0x004, 0x008, 0x00C, 0x010, 0x014, 0x018, 0x01C, 0x024, 0x028, 0x02C, 0x030, 0x034,
    0x038, 0x054, 0x058, 0x05C,
];

pub struct Ride {
    pub chance: Chance,
    slot: Machine,
    file: RunFile,
    limit: usize,
}

impl Ride {
    /// A ride of at most `limit` steps, the last look included.
    pub fn new(chance: Chance, memory: Vec<u8>, card: Vec<u8>, limit: usize) -> Ride {
        Ride {
            chance,
            slot: Machine::new(memory.clone(), card.clone()),
            file: RunFile {
                memory,
                steps: Vec::new(),
                card,
            },
            limit: limit.saturating_sub(LAST_LOOK.len()),
        }
    }

    /// Does a step and notes it. Once the ride is full it is only done, so that
    /// acts of several steps need not look at the room left.
    pub fn take(&mut self, step: Step) -> Seen {
        let seen = self.slot.step(&step);
        if !self.full() {
            self.file.steps.push(step);
        }
        seen
    }

    pub fn write(&mut self, offset: u16, width: u8, value: u32) -> Seen {
        self.take(kinds::write(offset, width, value))
    }

    pub fn full(&self) -> bool {
        self.file.steps.len() >= self.limit
    }

    /// Some bits of Present State.
    pub fn state(&self, bits: u32) -> bool {
        self.slot.peek(0x024) & bits != 0
    }

    /// A register group as it stands.
    pub fn register(&self, offset: u32) -> u32 {
        self.slot.peek(offset)
    }

    /// SD Bus Power and SD Clock Enable.
    pub fn powered(&self) -> bool {
        self.slot.peek(0x028) >> 8 & 1 == 1 && self.slot.peek(0x02C) & 4 != 0
    }

    /// The file of all steps, with the last look.
    pub fn done(mut self) -> RunFile {
        for offset in LAST_LOOK {
            self.file.steps.push(kinds::read(offset, 4));
        }
        self.file
    }
}
