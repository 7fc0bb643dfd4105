//! One run: a slot, the memory lent to its turns, the card's bytes, and the printed text.

use std::fmt::Write;

use crate::answers::{Refusal, DONE};
use crate::counters::Bytes;
use crate::faults::Fault;
use crate::registers::{Place, BLOCK_SIZE, SOFTWARE_RESET};
use crate::runfile::{parse_under, Kind, Step};
use crate::slot::Slot;
use crate::turns::Turned;

/// The room a run lends for a taken block.
const ROOM: usize = 512;

/// What can be seen of a step.
#[derive(Clone, Copy, Debug, PartialEq, Eq)]
pub struct Seen {
    pub answer: u32,
    pub value: u32,
    /// The interrupt line after the step.
    pub line: bool,
    /// Status bits that read 0 before the step and 1 after it: bit k of 030h at k, bit k of
    /// 032h at 16 + k.
    pub raised: u32,
    /// The ADMA error byte, if the engine met an error in this step.
    pub fault: Option<u8>,
    /// Bits 2-0 of an accepted write to 02Fh.
    pub resets: u8,
}

/// One slot at power-on with no card, the run's memory and the card's bytes.
#[derive(Clone, Debug, PartialEq, Eq)]
pub struct Machine {
    slot: Slot,
    memory: Vec<u8>,
    card: Vec<u8>,
    card_used: usize,
    room: [u8; ROOM],
}

/// What a step that was done leaves to tell.
#[derive(Default)]
struct Done {
    value: u32,
    fault: Option<u8>,
    resets: u8,
}

impl From<()> for Done {
    fn from((): ()) -> Done {
        Done::default()
    }
}

impl From<Bytes> for Done {
    fn from(moved: Bytes) -> Done {
        Done {
            value: moved.0,
            ..Done::default()
        }
    }
}

impl From<Turned> for Done {
    fn from(turned: Turned) -> Done {
        Done {
            fault: turned.error.map(|error| error.byte()),
            ..Done::from(turned.moved)
        }
    }
}

impl Machine {
    pub fn new(memory: Vec<u8>, card: Vec<u8>) -> Machine {
        Machine::with_fault(memory, card, None)
    }

    /// Only for tests of the comparison: the same with one rule broken.
    pub fn with_fault(memory: Vec<u8>, card: Vec<u8>, fault: Option<Fault>) -> Machine {
        Machine {
            slot: Slot {
                fault,
                ..Slot::power_on()
            },
            memory,
            card,
            card_used: 0,
            room: [0; ROOM],
        }
    }

    /// Runs one step of a good file.
    pub fn step(&mut self, step: &Step) -> Seen {
        self.watched(|machine| machine.act(step))
    }

    /// Offers any block, which need be none of the card's bytes.
    pub fn given(&mut self, block: &[u8]) -> Seen {
        self.watched(|machine| machine.slot.block_given(block).map(Done::from))
    }

    /// A block is taken into any room.
    pub fn taken_into(&mut self, room: &mut [u8]) -> Seen {
        self.watched(|machine| machine.slot.block_taken(room).map(Done::from))
    }

    /// A turn over memory that is lent for it alone.
    pub fn turn_over(&mut self, memory: &mut [u8]) -> Seen {
        self.watched(|machine| machine.slot.turn(memory).map(Done::from))
    }

    /// A turn over the first bytes of the run's memory only.
    pub fn turn_within(&mut self, length: usize) -> Seen {
        self.watched(|machine| {
            let length = length.min(machine.memory.len());
            machine
                .slot
                .turn(&mut machine.memory[..length])
                .map(Done::from)
        })
    }

    fn watched(&mut self, act: impl FnOnce(&mut Machine) -> Result<Done, Refusal>) -> Seen {
        let before = self.slot.status();
        let (answer, done) = match act(self) {
            Ok(done) => (DONE, done),
            Err(refusal) => (refusal.number(), Done::default()),
        };
        Seen {
            answer,
            value: done.value,
            line: self.slot.line(),
            raised: self.slot.status() & !before,
            fault: done.fault,
            resets: done.resets,
        }
    }

    /// A kind that no good file holds is answered like an event that is never in turn.
    fn act(&mut self, step: &Step) -> Result<Done, Refusal> {
        let kind = Kind::of(step.kind).ok_or(Refusal::OutOfTurn)?;
        match kind {
            Kind::Write => self.write(step),
            Kind::Read => self.read(step),
            Kind::In => self.slot.card_comes_in().map(Done::from),
            Kind::Out => self.slot.card_goes_out().map(Done::from),
            Kind::Response => self.slot.response(step.detail, step.words).map(Done::from),
            Kind::Given => self.give_block(),
            Kind::Taken => self.slot.block_taken(&mut self.room).map(Done::from),
            Kind::BusyOver => self.slot.busy_over().map(Done::from),
            Kind::DataError => self.slot.data_error(step.detail).map(Done::from),
            Kind::Level => self.slot.card_level(step.detail != 0).map(Done::from),
            Kind::Turn => self.slot.turn(&mut self.memory).map(Done::from),
        }
    }

    fn write(&mut self, step: &Step) -> Result<Done, Refusal> {
        let (offset, width) = (u32::from(step.offset), u32::from(step.detail));
        let [value, ..] = step.words;
        self.slot.write(offset, width, value)?;
        let place = Place::decode(offset, width);
        let reset = place.and_then(|place| place.byte_for(SOFTWARE_RESET, value));
        Ok(Done {
            resets: reset.unwrap_or(0) & 7,
            ..Done::default()
        })
    }

    fn read(&self, step: &Step) -> Result<Done, Refusal> {
        let (offset, width) = (u32::from(step.offset), u32::from(step.detail));
        let value = self.slot.read(offset, width)?;
        Ok(Done {
            value,
            ..Done::default()
        })
    }

    /// Offers the next block of card bytes, or what is left of them. A refused block is still
    /// the card's.
    fn give_block(&mut self) -> Result<Done, Refusal> {
        let size = usize::from(self.slot.registers.half(BLOCK_SIZE) & 0x0FFF);
        let left = self.card.get(self.card_used..).unwrap_or_default();
        let block = left.get(..size).unwrap_or(left);
        let given = self.slot.block_given(block);
        if given.is_ok() || self.slot.fault == Some(Fault::RefusedBlockUsed) {
            self.card_used += block.len();
        }
        given.map(Done::from)
    }

    /// The register word at an offset that is a multiple of 4 below 256; 0 at any other.
    pub fn peek(&self, offset: u32) -> u32 {
        self.slot.read(offset, 4).unwrap_or(0)
    }

    pub fn memory(&self) -> &[u8] {
        &self.memory
    }

    /// What the one-block buffer holds; nothing without a running transfer.
    pub fn buffer(&self) -> &[u8] {
        self.slot.buffer()
    }

    /// The room for taken blocks as the last one left it.
    pub fn taken(&self) -> &[u8] {
        &self.room
    }

    /// Card bytes that were not used up yet.
    pub fn card_left(&self) -> usize {
        self.card.len().saturating_sub(self.card_used)
    }

    /// Whether a transfer runs: not halted, and not a busy.
    pub fn running(&self) -> bool {
        self.slot.transfer_runs()
    }
}

/// The whole text the run program prints for a run file.
pub fn run(bytes: &[u8]) -> String {
    run_with(bytes, None)
}

/// Only for tests of the comparison: the same with one rule broken.
pub fn run_with(bytes: &[u8], fault: Option<Fault>) -> String {
    let Some(file) = parse_under(bytes, fault) else {
        return "bad file\n".to_string();
    };
    let mut text = format!("steps {}\n", file.steps.len());
    let mut machine = Machine::with_fault(file.memory, file.card, fault);
    for (number, step) in file.steps.iter().enumerate() {
        let seen = machine.step(step);
        let line = u8::from(seen.line);
        // Writing into a string cannot fail.
        let _ = writeln!(text, "{number} {} {:08X} {line}", seen.answer, seen.value);
    }
    text
}
