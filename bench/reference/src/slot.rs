//! The one record of a slot, what a guest reads and writes of it, and the resets.

use crate::answers::Refusal;
use crate::commands::CommandSide;
use crate::faults::Fault;
use crate::interrupts::Event;
use crate::registers::{
    Place, Registers, BUS_POWER, CLOCK_CONTROL, CLOCK_ENABLE, POWER_CONTROL, PRESENT_STATE,
    SLOT_LINE, SOFTWARE_RESET, STATUS,
};
use crate::turns::DatSide;

/// Software Reset bits.
const RESET_ALL: u8 = 1;
const RESET_CMD: u8 = 2;
const RESET_DAT: u8 = 4;

/// Present State bits that are always 1: card state stable, write protect level, DAT and CMD.
const ALWAYS_ONE: u32 = 0x01FA_0000;
/// Card Inserted and Card Detect Pin Level.
const CARD_PRESENT: u32 = 0x0005_0000;

/// Everything a slot knows; each step updates it where it is kept.
#[derive(Clone, Debug, PartialEq, Eq)]
pub struct Slot {
    pub registers: Registers,
    pub command: CommandSide,
    pub dat: DatSide,
    pub card_in: bool,
    /// The card's interrupt level. It belongs to the card, so no reset touches it.
    pub level: bool,
    /// The rule that is broken, only in tests of the comparison.
    pub fault: Option<Fault>,
    /// Only under `Fault::AckDropsLine`: the line is down until the next event.
    pub line_dropped: bool,
}

impl Slot {
    /// Power-on without a card.
    pub fn power_on() -> Slot {
        Slot {
            registers: Registers::POWER_ON,
            command: CommandSide::Free,
            dat: DatSide::Free,
            card_in: false,
            level: false,
            fault: None,
            line_dropped: false,
        }
    }

    /// A guest's read. No read has an effect.
    pub fn read(&self, offset: u32, width: u32) -> Result<u32, Refusal> {
        let Some(place) = Place::decode(offset, width) else {
            return Err(Refusal::NoPlace);
        };
        let mut bytes = [0; 4];
        for (byte, at) in bytes.iter_mut().zip(place.offsets()) {
            *byte = self.read_byte(at);
        }
        Ok(u32::from_le_bytes(bytes))
    }

    fn read_byte(&self, offset: u8) -> u8 {
        let of_word = |word: u32| word.to_le_bytes()[usize::from(offset % 4)];
        match offset & !3 {
            PRESENT_STATE => of_word(self.present_state()),
            STATUS => of_word(self.status()),
            SLOT_LINE if offset == SLOT_LINE => u8::from(self.line()),
            _ => self.registers.byte(offset),
        }
    }

    fn present_state(&self) -> u32 {
        let card = if self.card_in { CARD_PRESENT } else { 0 };
        ALWAYS_ONE | card | self.command.present_state() | self.dat.present_state()
    }

    /// A guest's write of any place.
    pub fn write(&mut self, offset: u32, width: u32, value: u32) -> Result<(), Refusal> {
        let Some(place) = Place::decode(offset, width) else {
            return Err(Refusal::NoPlace);
        };
        if !place.fits(value) {
            return Err(Refusal::NoPlace);
        }
        if place.issues_command() {
            return self.write_command(place, value);
        }
        if place.wholly_guarded() && self.dat.in_use() {
            return Err(Refusal::Guarded);
        }
        for (at, byte) in place.bytes_of(value) {
            self.write_byte(at, byte);
        }
        Ok(())
    }

    fn write_byte(&mut self, offset: u8, byte: u8) {
        match offset {
            POWER_CONTROL => self.write_power(byte),
            CLOCK_CONTROL => self.write_clock(byte),
            SOFTWARE_RESET => self.reset(byte),
            0x30..=0x33 => self.acknowledge(offset, byte),
            0x34..=0x37 => self.write_status_enable(offset, byte),
            0x52..=0x53 => self.force_event(offset, byte),
            _ => self.registers.store(offset, byte),
        }
    }

    /// Power stays on only at the one carried voltage and with a card to feed; a bit that may
    /// not stay is gone, it does not come back with a later card.
    fn write_power(&mut self, byte: u8) {
        let voltage = byte & 0x0E;
        let may_stay = self.card_in && voltage == 0x0E;
        let power = if may_stay { byte & BUS_POWER } else { 0 };
        self.registers.set_byte(POWER_CONTROL, voltage | power);
    }

    /// The internal clock is stable as soon as it runs; the card's clock needs it and a card.
    fn write_clock(&mut self, byte: u8) {
        let kept = match byte & 1 {
            0 => 0,
            _ if self.card_in => 0x03 | byte & CLOCK_ENABLE,
            _ => 0x03,
        };
        self.registers.set_byte(CLOCK_CONTROL, kept);
    }

    /// Software Reset. The full reset covers the other two, so they matter only without it.
    fn reset(&mut self, bits: u8) {
        if bits & RESET_ALL != 0 {
            return self.reset_all();
        }
        if bits & RESET_CMD != 0 {
            self.reset_command();
        }
        if bits & RESET_DAT != 0 {
            self.reset_dat();
        }
    }

    /// Everything back to power-on; only what belongs to the card survives.
    fn reset_all(&mut self) {
        *self = Slot {
            card_in: self.card_in,
            level: self.level,
            fault: self.fault,
            ..Slot::power_on()
        };
        if self.fault == Some(Fault::FullResetDropsLevel) {
            self.level = false;
        }
    }

    /// Data or busy that waits on the dropped response can never start, hence is halted.
    fn reset_command(&mut self) {
        self.command = CommandSide::Free;
        self.lower(Event::CommandComplete);
        if self.dat.awaits_response() {
            self.dat.halt();
        }
        if self.fault == Some(Fault::CommandResetFrees) {
            self.dat = DatSide::Free;
        }
    }

    /// Frees DAT; a command that still waits goes on waiting.
    fn reset_dat(&mut self) {
        self.dat = DatSide::Free;
        self.lower(Event::TransferComplete);
    }
}
