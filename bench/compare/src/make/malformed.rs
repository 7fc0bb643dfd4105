//! Files that are bad, or only just good.

use super::flaw::Flaw;
use super::Made;
use crate::chance::Chance;
use reference::{RunFile, Step};
use runtext::{kinds, CARD_LIMIT, MEMORY_LIMIT, STEP_LIMIT};

/// A good file with one thing wrong, or right at a limit.
pub fn malformed(chance: &mut Chance, mut file: RunFile) -> Made {
    let mut flaw = Flaw::None;
    match chance.below(10) {
        0 => at_limit(chance, &mut file),
        1 => file = empty(),
        2..=6 => odd_step(chance, &mut file),
        _ => flaw = Flaw::any(chance),
    }
    Made { file, flaw }
}

// The smallest good file.
fn empty() -> RunFile {
    RunFile {
        memory: Vec::new(),
        steps: Vec::new(),
        card: Vec::new(),
    }
}

// A section at its limit, one under or one over, with all its bytes there.
fn at_limit(chance: &mut Chance, file: &mut RunFile) {
    let more = chance.below(3) as usize;
    match chance.below(3) {
        0 => file.memory.resize(MEMORY_LIMIT - 1 + more, 0),
        1 => file.card.resize(CARD_LIMIT - 1 + more, 0),
        _ => file
            .steps
            .resize(STEP_LIMIT - 1 + more, kinds::plain(kinds::TURN)),
    }
}

// One step with one thing wrong: no such kind, a level there is not, or a
// field that is not 0, which is bad where its kind does not use the field.
fn odd_step(chance: &mut Chance, file: &mut RunFile) {
    let place = chance.below(file.steps.len() as u32) as usize;
    let step = match chance.below(8) {
        0 => kinds::plain(chance.between(11, 255) as u8),
        1 => kinds::detailed(kinds::LEVEL, odd_level(chance)),
        _ => {
            let mut step = kinds::plain(chance.below(11) as u8);
            set_field(chance, &mut step);
            step
        }
    };
    if let Some(old) = file.steps.get_mut(place) {
        *old = step;
    }
}

// The first level that there is not, or any other.
fn odd_level(chance: &mut Chance) -> u8 {
    match chance.bit() {
        true => 2,
        false => chance.between(2, 255) as u8,
    }
}

fn set_field(chance: &mut Chance, step: &mut Step) {
    let value = match chance.bit() {
        true => 1 << chance.below(32),
        false => chance.next() as u32 | 1,
    };
    match chance.below(6) as usize {
        4 => step.detail = (value % 255) as u8 + 1,
        5 => step.offset = (value % 65_535) as u16 + 1,
        word => step.words[word] = value,
    }
}
