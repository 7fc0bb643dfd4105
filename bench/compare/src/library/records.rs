//! Slots restored from records that no step makes. The reference has no such state, so there is
//! nothing to compare: the library has to answer, and what it refuses must change nothing.

use super::look::Before;
use super::met::{Met, Odd};
use super::run::Run;
use crate::chance::Chance;
use crate::make;
use reference::Step;
use runtext::kinds;
use sdhc::{Adma, Command, Control, Dat, Interrupts, Record, Registers, Reply, Setup, Slot, Stage};

/// Steps on one record.
const STEPS: usize = 24;

/// The steps that look at the parts a record spells; others come as they come.
const USUAL: [u8; 8] = [
    kinds::TURN,
    kinds::TURN,
    kinds::TURN,
    kinds::GIVEN,
    kinds::TAKEN,
    kinds::RESPONSE,
    kinds::BUSY_OVER,
    kinds::DATA_ERROR,
];

/// Drives one slot that was restored from bytes by chance.
pub fn drive(chance: &mut Chance, met: &mut Met) -> Result<(), String> {
    let length = chance.below(600) as usize;
    let mut run = Run::new(chance.bytes(length), chance.bytes(2_000));
    let record = any(chance);
    let told = |what: String| format!("a slot from {record:?}: {what}");
    run.slot = Slot::restored(record, [chance.next() as u8; 512]);
    for _ in 0..STEPS {
        let step = step(chance);
        one(&mut run, &step)
            .map_err(|what| told(format!("{}: {what}", runtext::step_text(&step))))?;
        readable(&mut run.slot).map_err(told)?;
    }
    met.count(Odd::AnyRecord);
    Ok(())
}

fn step(chance: &mut Chance) -> Step {
    match chance.bit() {
        true => kinds::plain(chance.pick(&USUAL)),
        false => make::any_step(chance),
    }
}

fn one(run: &mut Run, step: &Step) -> Result<(), String> {
    let before = Before::of(&run.slot);
    let (memory, room) = (run.memory.clone(), run.room);
    let Some(answer) = run.step(step)? else {
        return Ok(());
    };
    if answer.done() {
        return Ok(());
    }
    before.is_kept(&run.slot)?;
    if answer.value != 0 || run.memory != memory || run.room != room {
        return Err("a refusal has a value, or changes what was lent".to_string());
    }
    Ok(())
}

// Every word of the block reads, and 0FCh bit 0 is the line.
fn readable(slot: &mut Slot) -> Result<(), String> {
    let mut word = [0; 4];
    for offset in (0..0x100).step_by(4) {
        if !slot.mmio_read(offset, &mut word).done() {
            return Err(format!("{offset:03X}h does not read"));
        }
    }
    // The last word read is the one of 0FCh.
    match slot.line() == (word[0] & 1 == 1) {
        true => Ok(()),
        false => Err("0FCh bit 0 is not the line".to_string()),
    }
}

// A tag is mostly one that means something of its own.
fn tag(chance: &mut Chance) -> u8 {
    match chance.one_in(8) {
        true => chance.next() as u8,
        false => chance.below(5) as u8,
    }
}

// A flag: down, up, or up by another number.
fn flag(chance: &mut Chance) -> u8 {
    chance.pick(&[0, 1, 1, 2, 255])
}

fn any(chance: &mut Chance) -> Record {
    Record {
        registers: registers(chance),
        card: flag(chance),
        level: flag(chance),
        command: Command {
            tag: tag(chance),
            kind: tag(chance),
            crc: flag(chance),
            index: flag(chance),
        },
        dat: dat(chance),
    }
}

fn registers(chance: &mut Chance) -> Registers {
    Registers {
        setup: Setup {
            system: chance.word(),
            block: chance.word(),
            argument: chance.word(),
            order: chance.word(),
        },
        reply: Reply {
            first: chance.word(),
            second: chance.word(),
            third: chance.word(),
            fourth: chance.word(),
        },
        control: Control {
            host: chance.word(),
            clock: chance.word(),
        },
        interrupts: Interrupts {
            status: chance.word(),
            enabled: chance.word(),
            signal: chance.word(),
        },
        adma: Adma {
            fault: chance.next() as u8,
            low: place(chance),
            high: chance.word(),
        },
    }
}

// A running transfer, half of the time, and its counters in and out of proportion.
fn dat(chance: &mut Chance) -> Dat {
    let tag = if chance.bit() { 2 } else { tag(chance) };
    let few = chance.below(600);
    Dat {
        tag,
        way: flag(chance),
        answered: flag(chance),
        counted: flag(chance),
        size: chance.pick(&[0, 1, 8, 511, 512, 513, 4_095, 65_535]),
        left: chance.pick(&[0, 1, 2, 65_535]),
        owed: pick_count(chance, few),
        held: pick_count(chance, few),
        stage: Stage {
            tag: chance.pick(&[0, 1, 1, 1, 2, 3, 255]),
            last: flag(chance),
            int: flag(chance),
            rest: pick_count(chance, few),
            at: place(chance),
        },
    }
}

fn pick_count(chance: &mut Chance, few: u32) -> u32 {
    let word = chance.word();
    chance.pick(&[0, 1, 8, few, few, 512, 65_536, word, u32::MAX])
}

// An address within the memory that is lent, near the top of all addresses, or anywhere.
fn place(chance: &mut Chance) -> u32 {
    match chance.below(4) {
        0 => chance.word(),
        1 => u32::MAX - chance.below(600),
        _ => chance.below(600),
    }
}
