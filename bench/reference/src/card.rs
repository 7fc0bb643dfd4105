//! The card is its events.

use crate::answers::Refusal;
use crate::commands::{Command, CommandSide, ResponseType};
use crate::counters::Bytes;
use crate::faults::Fault;
use crate::interrupts::Event;
use crate::registers::{
    BLOCK_COUNT, BUS_POWER, CLOCK_CONTROL, CLOCK_ENABLE, POWER_CONTROL, RESPONSE,
};
use crate::slot::Slot;
use crate::turns::{DatSide, Transfer};

impl Slot {
    pub fn card_comes_in(&mut self) -> Result<(), Refusal> {
        if self.card_in {
            return Err(Refusal::OutOfTurn);
        }
        self.card_in = true;
        self.raise(Event::CardInsertion);
        Ok(())
    }

    /// The card takes power, clock and its level along; whatever it was to answer is halted.
    pub fn card_goes_out(&mut self) -> Result<(), Refusal> {
        if !self.card_in {
            return Err(Refusal::OutOfTurn);
        }
        self.card_in = false;
        self.level = false;
        let power = self.registers.byte(POWER_CONTROL) & !BUS_POWER;
        self.registers.set_byte(POWER_CONTROL, power);
        let clock = self.registers.byte(CLOCK_CONTROL) & !CLOCK_ENABLE;
        self.registers.set_byte(CLOCK_CONTROL, clock);
        self.raise(Event::CardRemoval);
        self.command.halt();
        self.dat.halt();
        Ok(())
    }

    /// The card's interrupt level; it may repeat, but only a card has one.
    pub fn card_level(&mut self, level: bool) -> Result<(), Refusal> {
        if !self.card_in {
            return Err(Refusal::OutOfTurn);
        }
        self.level = level;
        Ok(())
    }

    /// A response to the waiting command: good, or one of the errors that fit it.
    pub fn response(&mut self, number: u8, words: [u32; 4]) -> Result<(), Refusal> {
        let CommandSide::Waits(command) = self.command else {
            return Err(Refusal::OutOfTurn);
        };
        if number == 0 {
            self.good_response(&command, words);
            return Ok(());
        }
        let error = response_error(&command, number).ok_or(Refusal::OutOfTurn)?;
        self.raise(error);
        self.command.halt();
        if self.fault == Some(Fault::ErrorFreesCommand) {
            self.command = CommandSide::Free;
        }
        if self.dat.awaits_response() {
            self.dat.halt();
        }
        Ok(())
    }

    fn good_response(&mut self, command: &Command, words: [u32; 4]) {
        self.store_response(command.response, words);
        self.command = CommandSide::Free;
        self.dat.response_arrives();
        self.raise(Event::CommandComplete);
    }

    /// A long response has 120 bits, so its last byte is no part of it and stays.
    fn store_response(&mut self, response: ResponseType, words: [u32; 4]) {
        let stored = match response {
            ResponseType::None => 0,
            ResponseType::Long if self.fault == Some(Fault::LongOverwrites) => 16,
            ResponseType::Long => 15,
            ResponseType::Short | ResponseType::ShortBusy => 4,
        };
        let bytes = words.into_iter().flat_map(u32::to_le_bytes);
        for (at, byte) in (RESPONSE..).zip(bytes).take(stored) {
            self.registers.set_byte(at, byte);
        }
    }

    /// A block from the card into the empty buffer.
    pub fn block_given(&mut self, block: &[u8]) -> Result<Bytes, Refusal> {
        let transfer = self.running_transfer().ok_or(Refusal::OutOfTurn)?;
        if !transfer.wants_block() {
            return Err(Refusal::OutOfTurn);
        }
        if block.len() != transfer.block_size().as_len() {
            return Err(Refusal::WrongBlock);
        }
        transfer.give(block);
        self.show_blocks_left();
        Ok(Bytes::in_slice(block))
    }

    /// A full buffer goes to the card; on a write this may be what completes the transfer.
    pub fn block_taken(&mut self, room: &mut [u8]) -> Result<Bytes, Refusal> {
        let fault = self.fault;
        let transfer = self.running_transfer().ok_or(Refusal::OutOfTurn)?;
        if !transfer.has_block() {
            return Err(Refusal::OutOfTurn);
        }
        let size = transfer.block_size();
        if fault == Some(Fault::ShortRoomFilled) && room.len() < size.as_len() {
            room.fill(0);
        }
        let place = room.get_mut(..size.as_len());
        let place = place.ok_or(Refusal::WrongBlock)?;
        transfer.take_into(place);
        self.show_blocks_left();
        self.complete_if_done();
        Ok(size)
    }

    fn running_transfer(&mut self) -> Option<&mut Transfer> {
        match &mut self.dat {
            DatSide::Transfer(transfer) => Some(transfer),
            _ => None,
        }
    }

    /// Block Count falls with the blocks of a Multi transfer and stays without Multi.
    fn show_blocks_left(&mut self) {
        if self.fault == Some(Fault::CountStays) {
            return;
        }
        if let DatSide::Transfer(transfer) = &self.dat {
            if let Some(left) = transfer.blocks_to_show() {
                self.registers.set_half(BLOCK_COUNT, left.0);
            }
        }
    }

    pub fn busy_over(&mut self) -> Result<(), Refusal> {
        if self.dat != (DatSide::Busy { response_in: true }) {
            return Err(Refusal::OutOfTurn);
        }
        self.free_dat();
        Ok(())
    }

    /// An error on the DAT lines; a busy has no data that could be wrong, it can only last.
    pub fn data_error(&mut self, number: u8) -> Result<(), Refusal> {
        let error = match number {
            0 => Event::DataTimeout,
            1 => Event::DataCrc,
            2 => Event::DataEndBit,
            _ => return Err(Refusal::OutOfTurn),
        };
        let in_turn = match &self.dat {
            DatSide::Transfer(transfer) => transfer.response_in(),
            DatSide::Busy { response_in } => *response_in && error == Event::DataTimeout,
            DatSide::Free | DatSide::Halted { .. } => false,
        };
        if !in_turn {
            return Err(Refusal::OutOfTurn);
        }
        self.raise(error);
        self.dat.halt();
        Ok(())
    }

    /// The good end of every use of the DAT side.
    pub fn free_dat(&mut self) {
        self.dat = DatSide::Free;
        self.raise(Event::TransferComplete);
    }
}

/// The error a number stands for, if the command can meet it: without a response there is
/// nothing to be late or wrong, and a check that is off finds nothing.
fn response_error(command: &Command, number: u8) -> Option<Event> {
    if command.response == ResponseType::None {
        return None;
    }
    match number {
        1 => Some(Event::CommandTimeout),
        2 if command.crc_check => Some(Event::CommandCrc),
        3 => Some(Event::CommandEndBit),
        4 if command.index_check => Some(Event::CommandIndex),
        _ => None,
    }
}
