//! Interrupt status, its enables, and the line.
//!
//! Status, status enable and signal enable are handled as 32-bit words: bit k of the normal
//! register at k, bit k of the error register at 16 + k.

use crate::faults::Fault;
use crate::registers::{FORCE_EVENT, SIGNAL_ENABLE, STATUS, STATUS_ENABLE};
use crate::slot::Slot;

const CARD_INTERRUPT: u32 = 1 << 8;
const ANY_ERROR: u32 = 1 << 15;
const ERROR_BITS: u32 = 0xFFFF_0000;

/// What can raise a status bit of its own.
#[derive(Clone, Copy, Debug, PartialEq, Eq)]
pub enum Event {
    CommandComplete,
    TransferComplete,
    DmaInterrupt,
    CardInsertion,
    CardRemoval,
    CommandTimeout,
    CommandCrc,
    CommandEndBit,
    CommandIndex,
    DataTimeout,
    DataCrc,
    DataEndBit,
    AdmaError,
}

impl Event {
    fn bit(self) -> u32 {
        match self {
            Event::CommandComplete => 1 << 0,
            Event::TransferComplete => 1 << 1,
            Event::DmaInterrupt => 1 << 3,
            Event::CardInsertion => 1 << 6,
            Event::CardRemoval => 1 << 7,
            Event::CommandTimeout => 1 << 16,
            Event::CommandCrc => 1 << 17,
            Event::CommandEndBit => 1 << 18,
            Event::CommandIndex => 1 << 19,
            Event::DataTimeout => 1 << 20,
            Event::DataCrc => 1 << 21,
            Event::DataEndBit => 1 << 22,
            Event::AdmaError => 1 << 25,
        }
    }
}

impl Slot {
    /// Both status registers as a guest reads them. The card interrupt and the error summary
    /// are never stored: the one follows the card's level, the other the error bits.
    pub fn status(&self) -> u32 {
        let mut status = self.registers.word(STATUS);
        if self.level {
            status |= self.registers.word(STATUS_ENABLE) & CARD_INTERRUPT;
        }
        if status & ERROR_BITS != 0 {
            status |= ANY_ERROR;
        }
        status
    }

    /// The interrupt line: some standing bit has its signal enable. The error summary has no
    /// signal enable that could be stored, so it takes no part.
    pub fn line(&self) -> bool {
        if self.fault == Some(Fault::AckDropsLine) && self.line_dropped {
            return false;
        }
        self.status() & self.registers.word(SIGNAL_ENABLE) != 0
    }

    /// An event sets its bit only while enabled; otherwise it is lost.
    pub fn raise(&mut self, event: Event) {
        let mut bit = event.bit();
        if self.fault == Some(Fault::OneComplete) && event == Event::TransferComplete {
            bit = Event::CommandComplete.bit();
        }
        if self.fault != Some(Fault::EventNeedsNoEnable) {
            bit &= self.registers.word(STATUS_ENABLE);
        }
        let status = self.registers.word(STATUS);
        self.registers.set_word(STATUS, status | bit);
        self.line_dropped = false;
    }

    /// A reset takes a bit back.
    pub fn lower(&mut self, event: Event) {
        let status = self.registers.word(STATUS);
        self.registers.set_word(STATUS, status & !event.bit());
    }

    /// Writing 1 clears a stored bit, 0 keeps it, and only in the byte that was written.
    pub fn acknowledge(&mut self, offset: u8, byte: u8) {
        let standing = self.registers.byte(offset);
        self.registers.set_byte(offset, standing & !byte);
        if self.fault == Some(Fault::AckDropsLine) && standing & byte != 0 {
            self.line_dropped = true;
        }
        if self.fault == Some(Fault::AckClearsAll) && standing & byte != 0 {
            self.registers.set_word(STATUS, 0);
        }
    }

    /// Clearing an enable clears its bit for good; each byte judges its own eight.
    pub fn write_status_enable(&mut self, offset: u8, byte: u8) {
        self.registers.store(offset, byte);
        if self.fault == Some(Fault::DisableKeepsBit) {
            return;
        }
        let status = offset - STATUS_ENABLE + STATUS;
        let standing = self.registers.byte(status) & self.registers.byte(offset);
        self.registers.set_byte(status, standing);
    }

    /// Force Event: a way to write error status bits, and nothing but the bits.
    pub fn force_event(&mut self, offset: u8, byte: u8) {
        let high = offset - FORCE_EVENT;
        let enabled = self.registers.byte(STATUS_ENABLE + 2 + high);
        let status = STATUS + 2 + high;
        let standing = self.registers.byte(status);
        self.registers.set_byte(status, standing | byte & enabled);
    }
}
