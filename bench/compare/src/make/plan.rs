//! Memory, card and the transfers planned over them, made before the ride: a
//! run file's memory stands from the start.

use super::fate::{self, Area, Fate, FATES};
use super::table::{self, Line, END, INT, LINK, NOP, RESERVED, TRAN, VALID};
use crate::chance::Chance;
use runtext::{CARD_LIMIT, MEMORY_LIMIT};

/// One transfer a driver may set up.
#[derive(Clone, Copy)]
pub struct Plan {
    pub start: u32,
    pub size: u32,
    pub blocks: u32,
    pub multi: bool,
    pub read: bool,
}

/// What a ride starts with.
pub struct Stock {
    pub memory: Vec<u8>,
    pub card: Vec<u8>,
    pub plans: Vec<Plan>,
}

/// Tables made for every fate, one after the other, with data above them.
pub fn tables(chance: &mut Chance) -> Stock {
    let length = memory_length(chance);
    let mut memory = chance.bytes(length);
    let mut at = 8 * chance.below(4) as usize + 4 * chance.below(2) as usize;
    let length = length as u32;
    let low = (length / 2).min(1024) & !3;
    let plans = (0..chance.between(2, 8))
        .map(|_| {
            let mut plan = shape(chance);
            let fate = chance.weighted(&FATES);
            let low = if plan.read { low } else { 0 };
            let owed = plan.size * plan.blocks;
            let entries = fate::entries(chance, fate, owed, Area { length, low });
            plan.start = table::lay(chance, &mut memory, &mut at, &entries);
            if fate == Fate::Beyond && chance.one_in(4) {
                plan.start = length;
            }
            plan
        })
        .collect();
    let most = chance.pick(&[0, 100, 4_000, 4_000, CARD_LIMIT as u32]);
    let card = chance.bytes(most as usize);
    Stock {
        memory,
        card,
        plans,
    }
}

fn memory_length(chance: &mut Chance) -> usize {
    let edge = chance.pick(&[0, 7, 8, 24, 61, MEMORY_LIMIT as u32]);
    let usual = chance.between(600, 5_000);
    let length = if chance.one_in(8) { edge } else { usual };
    length as usize
}

/// Block sizes and counts whose products lie at an edge: of the longest line,
/// or of a counter that is too narrow.
const EDGES: [(u32, u32); 10] = [
    (512, 127),
    (512, 128),
    (511, 129),
    (2, 32_768),
    (1, 65_535),
    (512, 2_048),
    (17, 65_535),
    (512, 32_768),
    (512, 65_535),
    (8, 40),
];

fn shape(chance: &mut Chance) -> Plan {
    let read = chance.bit();
    let multi = chance.bit();
    let (size, blocks) = match chance.below(16) {
        0 if multi => chance.pick(&EDGES),
        _ if multi => (block_size(chance), chance.between(1, 6)),
        _ => (block_size(chance), 1),
    };
    Plan {
        start: 0,
        size,
        blocks,
        multi,
        read,
    }
}

fn block_size(chance: &mut Chance) -> u32 {
    match chance.below(8) {
        0 => 512,
        1 => chance.pick(&[1, 2, 3, 511]),
        2 | 3 => chance.between(1, 16),
        4 => chance.pick(&[8, 16, 24, 32, 64]),
        _ => chance.between(1, 100),
    }
}

/// Memory and card full of lines: reads then fill lines still to come, and what
/// a read has moved shows when it is fetched.
pub fn soup(chance: &mut Chance) -> Stock {
    let length = chance.between(64, 600);
    let mut memory = lines(chance, length, length as usize);
    memory.truncate(length as usize);
    let plans = (0..chance.between(4, 12))
        .map(|_| soup_plan(chance, length))
        .collect();
    let count = chance.between(100, 4_000) as usize;
    let mut card = lines(chance, length, count);
    if chance.one_in(4) {
        // One byte more at the front puts every line out of step.
        card.insert(0, 1);
    }
    Stock {
        memory,
        card,
        plans,
    }
}

fn soup_plan(chance: &mut Chance, length: u32) -> Plan {
    let multi = chance.bit();
    Plan {
        start: 8 * chance.below(length / 8 + 1),
        size: chance.pick(&[8, 8, 16, 16, 24, 32, 64, 12, 7]),
        blocks: if multi { chance.between(1, 5) } else { 1 },
        multi,
        read: !chance.one_in(4),
    }
}

fn lines(chance: &mut Chance, length: u32, bytes: usize) -> Vec<u8> {
    (0..bytes.div_ceil(8))
        .flat_map(|_| stray(chance, length).bytes())
        .collect()
}

// A line that makes sense by itself, for memory of that length.
fn stray(chance: &mut Chance, length: u32) -> Line {
    let act = chance.pick(&[NOP, RESERVED, LINK, TRAN, TRAN, TRAN, TRAN, TRAN]);
    let valid = if chance.one_in(12) { 0 } else { VALID };
    let end = if chance.one_in(3) { END } else { 0 };
    Line {
        attributes: act | valid | end | chance.maybe(INT),
        length: chance.pick(&[8, 8, 8, 16, 16, 24, 32, 4, 1, 0]),
        address: 8 * chance.below(length / 8),
    }
}
