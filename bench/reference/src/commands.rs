//! Judging and issuing a command.

use crate::answers::Refusal;
use crate::faults::Fault;
use crate::registers::{Place, Registers, COMMAND, TRANSFER_MODE};
use crate::slot::Slot;
use crate::turns::{DatSide, Transfer};

/// The command side: bit 0 of Present State is up unless it is free.
#[derive(Clone, Copy, Debug, PartialEq, Eq)]
pub enum CommandSide {
    Free,
    Waits(Command),
    Halted,
}

impl CommandSide {
    pub fn inhibits(&self) -> bool {
        *self != CommandSide::Free
    }

    pub fn present_state(&self) -> u32 {
        u32::from(self.inhibits())
    }

    /// Only a waiting command can be halted; a free side has nothing to halt.
    pub fn halt(&mut self) {
        if self.inhibits() {
            *self = CommandSide::Halted;
        }
    }
}

/// The command type field.
#[derive(Clone, Copy, Debug, PartialEq, Eq)]
enum CommandType {
    Normal,
    Suspend,
    Resume,
    Abort,
}

/// The response type field.
#[derive(Clone, Copy, Debug, PartialEq, Eq)]
pub enum ResponseType {
    None,
    Long,
    Short,
    ShortBusy,
}

/// A command with the settings it is issued with; later writes do not reach it.
#[derive(Clone, Copy, Debug, PartialEq, Eq)]
pub struct Command {
    command_type: CommandType,
    pub response: ResponseType,
    pub crc_check: bool,
    pub index_check: bool,
    data: bool,
}

impl Command {
    /// Reads the command register's bits.
    fn decode(bits: u16) -> Command {
        let response = match bits & 3 {
            0 => ResponseType::None,
            1 => ResponseType::Long,
            2 => ResponseType::Short,
            _ => ResponseType::ShortBusy,
        };
        let command_type = match bits >> 6 & 3 {
            0 => CommandType::Normal,
            1 => CommandType::Suspend,
            2 => CommandType::Resume,
            _ => CommandType::Abort,
        };
        Command {
            command_type,
            response,
            crc_check: bits & 1 << 3 != 0,
            index_check: bits & 1 << 4 != 0,
            data: bits & 1 << 5 != 0,
        }
    }

    fn is_abort(&self) -> bool {
        self.command_type == CommandType::Abort
    }

    /// An Abort is there to end a use of the DAT side, so it never waits for one.
    fn waits_for_dat(&self) -> bool {
        (self.data || self.response == ResponseType::ShortBusy) && !self.is_abort()
    }
}

impl Slot {
    /// A write that reaches byte 00Fh: judged first, so that a refusal stores nothing.
    pub fn write_command(&mut self, place: Place, value: u32) -> Result<(), Refusal> {
        let proposed = self.proposed_registers(place, value);
        let command = Command::decode(proposed.half(COMMAND));
        if self.fault == Some(Fault::RefusalStores) {
            self.registers = proposed.clone();
        }
        self.judge_sides(&command)?;
        let own_use = self.plan_own_use(&command, &proposed)?;
        self.registers = proposed;
        self.issue(command, own_use);
        Ok(())
    }

    /// The registers as they would stand after the access. While DAT is inhibited the mode
    /// half of a wide access keeps its old value, and the command is judged by that.
    fn proposed_registers(&self, place: Place, value: u32) -> Registers {
        let mut proposed = self.registers.clone();
        let mode_half = TRANSFER_MODE..COMMAND;
        let kept = self.dat.in_use() && self.fault != Some(Fault::ModeHalfStored);
        for (at, byte) in place.bytes_of(value) {
            if !(mode_half.contains(&at) && kept) {
                proposed.store(at, byte);
            }
        }
        proposed
    }

    /// Answers 3, 4 and 5, in that order.
    fn judge_sides(&self, command: &Command) -> Result<(), Refusal> {
        if self.command.inhibits() {
            return Err(Refusal::CommandInhibited);
        }
        if command.waits_for_dat() && self.dat.in_use() {
            return Err(Refusal::DatInhibited);
        }
        if !self.registers.clock_enabled() || !self.registers.bus_power() {
            return Err(Refusal::Unpowered);
        }
        Ok(())
    }

    /// Answer 6, or the use of the DAT side that the command brings of its own. Whether there
    /// is a busy is settled here, at issue: an Abort that ends another use has none.
    fn plan_own_use(
        &self,
        command: &Command,
        settings: &Registers,
    ) -> Result<Option<DatSide>, Refusal> {
        match command.command_type {
            CommandType::Suspend | CommandType::Resume => return Err(Refusal::NotCarried),
            CommandType::Abort if command.data => return Err(Refusal::NotCarried),
            CommandType::Abort | CommandType::Normal => {}
        }
        if command.data {
            let transfer = Transfer::plan(command.response, settings, self.fault);
            let transfer = transfer.ok_or(Refusal::NotCarried)?;
            return Ok(Some(DatSide::Transfer(transfer)));
        }
        let busy = command.response == ResponseType::ShortBusy && !self.dat.in_use();
        Ok(busy.then_some(DatSide::Busy { response_in: false }))
    }

    fn issue(&mut self, command: Command, own_use: Option<DatSide>) {
        self.command = CommandSide::Waits(command);
        if command.is_abort() {
            self.dat.halt();
        }
        if command.is_abort() && self.fault == Some(Fault::AbortFrees) {
            self.dat = DatSide::Free;
        }
        if let Some(own_use) = own_use {
            self.dat = own_use;
        }
    }
}
