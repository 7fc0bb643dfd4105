//! A slot that is cloned, or kept and restored, goes on as the one it was taken from.

mod common;

use common::{memory, writing, MEMORY};
use sdhc::{Answer, Slot, BLOCK};

/// What the rest of a write shows: every answer, every block, and the line after each step.
fn to_the_end(slot: &mut Slot, memory: &mut [u8]) -> Vec<(Answer, bool, [u8; 8])> {
    let mut seen = Vec::new();
    while !slot.line() {
        let turned = slot.turn(memory);
        seen.push((turned, slot.line(), [0; 8]));
        if !turned.done() {
            let mut block = [0; 8];
            let taken = slot.taken(&mut block);
            assert!(taken.done(), "neither the engine nor the card can go on");
            seen.push((taken, slot.line(), block));
        }
    }
    seen
}

/// The slot before each of its turns and blocks, up to the end of the transfer.
fn every_stage() -> Vec<(Slot, [u8; MEMORY])> {
    let (mut slot, mut memory) = (writing(), memory());
    let mut stages = vec![(slot.clone(), memory)];
    while !slot.line() {
        if !slot.turn(&mut memory).done() {
            assert!(slot.taken(&mut [0; 8]).done());
        }
        stages.push((slot.clone(), memory));
    }
    stages
}

#[test]
fn from_every_stage_of_a_write() {
    let stages = every_stage();
    assert_eq!(stages.len(), 8, "five turns, two blocks, and the start");
    for (slot, memory) in stages {
        let (mut first, mut first_memory) = (slot.clone(), memory);
        let (mut second, mut second_memory) =
            (Slot::restored(*slot.record(), *slot.buffer()), memory);
        assert!(first == second);
        let seen = to_the_end(&mut first, &mut first_memory);
        assert_eq!(seen, to_the_end(&mut second, &mut second_memory));
        assert!(first == second && first_memory == second_memory);
    }
}

/// The buffer is part of the slot: without it another block reaches the card.
#[test]
fn the_buffer_is_kept_too() {
    let (slot, mut memory) = every_stage().swap_remove(2);
    let mut forgetful = Slot::restored(*slot.record(), [0; BLOCK]);
    let seen = to_the_end(&mut slot.clone(), &mut memory);
    let other = to_the_end(&mut forgetful, &mut memory);
    assert_eq!(seen[1].2, [0x20, 0x21, 0x22, 0x23, 0x24, 0x25, 0x26, 0x27]);
    assert_eq!(other[1].2, [0; 8]);
}

/// A step on a clone is no step on the slot it was taken from.
#[test]
fn slots_are_independent() {
    let slot = writing();
    let mut other = slot.clone();
    assert!(other.turn(&mut memory()).done());
    assert!(slot == writing() && slot != other);
}

/// Every record has a meaning: bytes that no ride leaves behind are answered, too, and reach no byte beyond what is lent.
#[test]
fn a_strange_record_is_answered() {
    let mut record = *writing().record();
    record.card = 0xFF;
    record.dat.size = 0xFFFF;
    record.dat.held = 0xFFFF_FFFF;
    record.dat.owed = 0xFFFF_FFFF;
    record.dat.stage.tag = 1;
    record.dat.stage.rest = 0xFFFF_FFFF;
    record.dat.stage.at = 0xFFFF_FFF0;
    let mut slot = Slot::restored(record, [0xAB; BLOCK]);
    let (mut memory, mut room) = (memory(), [0; BLOCK]);
    assert_eq!(
        slot.turn(&mut memory).number,
        sdhc::Number::NotYet,
        "a full buffer"
    );
    assert_eq!(slot.taken(&mut room).value, BLOCK as u32);
    assert_eq!(room, [0xAB; BLOCK]);
    assert_eq!(slot.turn(&mut memory).value, 0);
    assert_eq!(slot.record().registers.adma.fault, 3, "beyond memory");
    assert_eq!(memory, common::memory());
}
