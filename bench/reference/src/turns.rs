//! The DAT side, the transfer and the engine's turns.

use crate::answers::{accept_memory, Refusal};
use crate::commands::ResponseType;
use crate::counters::{Blocks, Bytes};
use crate::faults::Fault;
use crate::interrupts::Event;
use crate::lines::{fetch, span, span_mut, Act, EngineError, Line};
use crate::registers::{
    Registers, ADMA_ADDRESS, ADMA_ERROR, BLOCK_COUNT, BLOCK_SIZE, HOST_CONTROL, TRANSFER_MODE,
};
use crate::slot::Slot;

/// The largest carried block.
const LARGEST_BLOCK: u16 = 512;

/// Which way the bytes go.
#[derive(Clone, Copy, Debug, PartialEq, Eq)]
pub enum Direction {
    /// From memory to the card.
    Write,
    /// From the card to memory.
    Read,
}

/// The DAT side and its use.
#[derive(Clone, Debug, PartialEq, Eq)]
pub enum DatSide {
    Free,
    Busy {
        response_in: bool,
    },
    Transfer(Transfer),
    /// A use that only a reset frees; a transfer's direction still shows in Present State.
    Halted {
        direction: Option<Direction>,
    },
}

impl DatSide {
    /// In use or halted: Command Inhibit (DAT).
    pub fn in_use(&self) -> bool {
        *self != DatSide::Free
    }

    fn direction(&self) -> Option<Direction> {
        match self {
            DatSide::Transfer(transfer) => Some(transfer.direction),
            DatSide::Halted { direction } => *direction,
            DatSide::Free | DatSide::Busy { .. } => None,
        }
    }

    pub fn present_state(&self) -> u32 {
        let inhibit_and_active = if self.in_use() { 0b110 } else { 0 };
        let direction = match self.direction() {
            Some(Direction::Write) => 1 << 8,
            Some(Direction::Read) => 1 << 9,
            None => 0,
        };
        inhibit_and_active | direction
    }

    /// Whether this is a use whose own response is still to come. That response is the one of
    /// the waiting command: no other command can be issued in between.
    pub fn awaits_response(&self) -> bool {
        match self {
            DatSide::Transfer(transfer) => !transfer.response_in,
            DatSide::Busy { response_in } => !response_in,
            DatSide::Free | DatSide::Halted { .. } => false,
        }
    }

    /// The good response of the command: its own use starts, any other one is not touched.
    pub fn response_arrives(&mut self) {
        match self {
            DatSide::Transfer(transfer) => transfer.response_in = true,
            DatSide::Busy { response_in } => *response_in = true,
            DatSide::Free | DatSide::Halted { .. } => {}
        }
    }

    pub fn halt(&mut self) {
        if self.in_use() {
            let direction = self.direction();
            *self = DatSide::Halted { direction };
        }
    }
}

/// The engine between two turns.
#[derive(Clone, Debug, PartialEq, Eq)]
enum Engine {
    /// No line in hand: the next turn fetches.
    Seeks,
    /// A Tran line in hand: the next turn moves.
    Holds(LineInHand),
    /// A line done with End.
    Stopped,
}

/// What is left of a fetched Tran line. Memory may change under it, so its fields are kept.
#[derive(Clone, Debug, PartialEq, Eq)]
struct LineInHand {
    address: u32,
    rest: Bytes,
    int: bool,
    end: bool,
}

/// A transfer that is not halted, with the settings of its command.
#[derive(Clone, Debug, PartialEq, Eq)]
pub struct Transfer {
    direction: Direction,
    multi: bool,
    block_size: Bytes,
    /// Blocks the card has still to give or take.
    blocks_left: Blocks,
    /// Bytes the engine has still to move.
    owed: Bytes,
    response_in: bool,
    engine: Engine,
    /// The one-block buffer: what was put in and not yet taken out.
    buffer: Vec<u8>,
    /// The rule that is broken, only in tests of the comparison.
    fault: Option<Fault>,
}

/// What a turn did to the world around the transfer.
struct Progress {
    /// The line address after the turn.
    after: u32,
    moved: Bytes,
    /// A line with Int was done.
    int: bool,
    error: Option<EngineError>,
}

/// A turn as it is reported: the bytes it moved, and the error it met.
#[derive(Clone, Copy, Debug, PartialEq, Eq)]
pub struct Turned {
    pub moved: Bytes,
    pub error: Option<EngineError>,
}

impl Transfer {
    /// The transfer that the settings ask for, if it is carried.
    pub fn plan(
        response: ResponseType,
        settings: &Registers,
        fault: Option<Fault>,
    ) -> Option<Transfer> {
        let mode = settings.byte(TRANSFER_MODE);
        let [dma, counted, auto_cmd12, read, multi] =
            [0, 1, 2, 4, 5].map(|bit| mode & 1 << bit != 0);
        let adma2 = settings.byte(HOST_CONTROL) >> 3 & 3 == 0b10;
        let size = settings.half(BLOCK_SIZE) & 0x0FFF;
        let count = Blocks(settings.half(BLOCK_COUNT));
        let carried = response == ResponseType::Short
            && dma
            && adma2
            && !auto_cmd12
            && (1..=LARGEST_BLOCK).contains(&size)
            && (!multi || counted && count > Blocks::NONE);
        let direction = if read {
            Direction::Read
        } else {
            Direction::Write
        };
        let blocks = if multi { count } else { Blocks::ONE };
        carried.then(|| Transfer {
            fault,
            ..Transfer::new(direction, multi, blocks, Bytes(u32::from(size)))
        })
    }

    fn new(direction: Direction, multi: bool, blocks: Blocks, block_size: Bytes) -> Transfer {
        Transfer {
            direction,
            multi,
            block_size,
            blocks_left: blocks,
            owed: blocks.of_size(block_size),
            response_in: false,
            engine: Engine::Seeks,
            buffer: Vec::new(),
            fault: None,
        }
    }

    pub fn block_size(&self) -> Bytes {
        self.block_size
    }

    pub fn response_in(&self) -> bool {
        self.response_in
    }

    /// The count that Block Count shows, if it shows one.
    pub fn blocks_to_show(&self) -> Option<Blocks> {
        self.multi.then_some(self.blocks_left)
    }

    fn content(&self) -> Bytes {
        Bytes::in_slice(&self.buffer)
    }

    /// A read can be given a block once its response is in and the buffer has been emptied.
    pub fn wants_block(&self) -> bool {
        self.direction == Direction::Read
            && self.response_in
            && self.buffer.is_empty()
            && self.blocks_left > Blocks::NONE
    }

    pub fn give(&mut self, block: &[u8]) {
        self.buffer.extend_from_slice(block);
        self.blocks_left = self.blocks_left.less_one();
    }

    /// A write has a block for the card once the buffer is full.
    pub fn has_block(&self) -> bool {
        self.direction == Direction::Write && self.content() == self.block_size
    }

    /// Empties the full buffer into a place of the block size.
    pub fn take_into(&mut self, place: &mut [u8]) {
        place.copy_from_slice(&self.buffer);
        self.buffer.clear();
        self.blocks_left = self.blocks_left.less_one();
    }

    /// Stopped well, nothing owed, no block left and the buffer empty. An engine that stops
    /// badly halts the transfer, so a stopped one here has stopped well.
    fn complete(&self) -> bool {
        (self.engine == Engine::Stopped || self.fault == Some(Fault::EndUnread))
            && self.owed == Bytes::NONE
            && self.blocks_left == Blocks::NONE
            && self.buffer.is_empty()
    }

    /// What a move could carry now: the buffer's room on a write, its content on a read.
    fn movable(&self) -> Bytes {
        match self.direction {
            Direction::Write => self.block_size.less(self.content()),
            Direction::Read => self.content(),
        }
    }

    /// One turn with the line address `at`, if one is possible now.
    fn turn(&mut self, memory: &mut [u8], at: u32) -> Result<Progress, Refusal> {
        if self.engine == Engine::Stopped {
            return Err(Refusal::NoTransfer);
        }
        if !self.response_in {
            return Err(Refusal::NotYet);
        }
        match std::mem::replace(&mut self.engine, Engine::Seeks) {
            Engine::Holds(line) if self.movable() == Bytes::NONE => {
                self.engine = Engine::Holds(line);
                Err(Refusal::NotYet)
            }
            Engine::Holds(line) => Ok(self.move_part(memory, line, at)),
            Engine::Seeks | Engine::Stopped => Ok(self.fetch_line(memory, at)),
        }
    }

    /// Fetches a line: a Tran is taken in hand, any other line is done at once.
    fn fetch_line(&mut self, memory: &[u8], at: u32) -> Progress {
        let fetched = fetch(memory, at, self.owed, self.fault);
        let mut progress = Progress {
            after: fetched.after,
            moved: Bytes::NONE,
            int: false,
            error: None,
        };
        match fetched.line {
            Err(error) => progress.error = Some(error),
            Ok(line) if line.act() == Act::Tran => {
                self.engine = Engine::Holds(LineInHand {
                    rest: line.length_under(self.fault),
                    ..LineInHand::from(line)
                });
                if self.fault == Some(Fault::FetchInterrupts) {
                    progress.int = line.int();
                }
            }
            Ok(line) => self.line_done(line.int(), line.end(), &mut progress),
        }
        progress
    }

    /// Moves what line and buffer allow; the line stays in hand until nothing of it is left.
    fn move_part(&mut self, memory: &mut [u8], line: LineInHand, at: u32) -> Progress {
        let count = line.rest.min(self.movable());
        let mut progress = Progress {
            after: at,
            moved: Bytes::NONE,
            int: false,
            error: None,
        };
        if self.carry(memory, line.address, count).is_none() {
            progress.error = Some(EngineError::MEMORY_SHORT);
            return progress;
        }
        progress.moved = count;
        self.owed = self.owed.less(count);
        let rest = line.rest.less(count);
        if rest == Bytes::NONE {
            self.line_done(line.int, line.end, &mut progress);
        } else {
            // The moved part lay in memory, so the address stays below its end.
            let address = line.address.wrapping_add(count.0);
            self.engine = Engine::Holds(LineInHand {
                address,
                rest,
                ..line
            });
        }
        progress
    }

    /// Carries bytes between memory and buffer, or nothing at all if memory is too short.
    fn carry(&mut self, memory: &mut [u8], address: u32, count: Bytes) -> Option<()> {
        match self.direction {
            Direction::Write => {
                self.buffer.extend_from_slice(span(memory, address, count)?);
                if self.fault == Some(Fault::LastByteLost) {
                    self.buffer.pop();
                    self.buffer.push(0);
                }
            }
            Direction::Read => {
                let place = span_mut(memory, address, count)?;
                let carried = self.buffer.drain(..count.as_len());
                for (byte, content) in place.iter_mut().zip(carried) {
                    *byte = content;
                }
            }
        }
        Some(())
    }

    /// A line is done: Int is told, End stops the engine, which is an error with bytes owed.
    fn line_done(&mut self, int: bool, end: bool, progress: &mut Progress) {
        progress.int = int;
        if end {
            self.engine = Engine::Stopped;
            if self.owed > Bytes::NONE {
                progress.error = Some(EngineError::STILL_OWED);
            }
        }
    }
}

impl From<Line<'_>> for LineInHand {
    fn from(line: Line<'_>) -> LineInHand {
        LineInHand {
            address: line.address(),
            rest: line.length(),
            int: line.int(),
            end: line.end(),
        }
    }
}

impl Slot {
    /// A turn of the engine over the memory lent for it.
    pub fn turn(&mut self, memory: &mut [u8]) -> Result<Turned, Refusal> {
        if self.fault != Some(Fault::MemoryUnbounded) {
            accept_memory(memory)?;
        }
        let DatSide::Transfer(transfer) = &mut self.dat else {
            return Err(Refusal::NoTransfer);
        };
        let at = self.registers.word(ADMA_ADDRESS);
        let progress = transfer.turn(memory, at)?;
        self.registers.set_word(ADMA_ADDRESS, progress.after);
        if progress.int {
            self.raise(Event::DmaInterrupt);
        }
        match progress.error {
            Some(error) => self.engine_fails(error),
            None => self.complete_if_done(),
        }
        Ok(Turned {
            moved: progress.moved,
            error: progress.error,
        })
    }

    fn engine_fails(&mut self, error: EngineError) {
        self.registers.set_byte(ADMA_ERROR, error.byte());
        self.raise(Event::AdmaError);
        self.dat.halt();
    }

    /// Transfer Complete comes in the very step that leaves nothing to do.
    pub fn complete_if_done(&mut self) {
        if matches!(&self.dat, DatSide::Transfer(transfer) if transfer.complete()) {
            self.free_dat();
        }
    }

    /// A transfer is on, and it is neither halted nor a busy.
    pub fn transfer_runs(&self) -> bool {
        matches!(self.dat, DatSide::Transfer(_))
    }

    /// What the buffer of a running transfer holds.
    pub fn buffer(&self) -> &[u8] {
        match &self.dat {
            DatSide::Transfer(transfer) => &transfer.buffer,
            _ => &[],
        }
    }
}

#[cfg(test)]
mod tests {
    use super::*;

    /// A line of 16 bytes at address 16, with End.
    const TABLE: [u8; 8] = [0x23, 0, 16, 0, 16, 0, 0, 0];

    fn memory() -> Vec<u8> {
        let mut memory = TABLE.to_vec();
        memory.extend(8..32);
        memory
    }

    /// A slot with a running transfer of two blocks of eight bytes, its line in hand.
    fn slot_with(direction: Direction) -> Slot {
        let mut transfer = Transfer::new(direction, true, Blocks(2), Bytes(8));
        transfer.response_in = true;
        let mut slot = Slot::power_on();
        slot.dat = DatSide::Transfer(transfer);
        assert_eq!(slot.turn(&mut memory()), Ok(well(0)));
        slot
    }

    fn well(moved: u32) -> Turned {
        Turned {
            moved: Bytes(moved),
            error: None,
        }
    }

    #[test]
    fn a73_memory_lent_now_has_to_hold_this_move_only() {
        let mut slot = slot_with(Direction::Write);
        assert_eq!(slot.turn(&mut memory()[..24]), Ok(well(8)));
        let mut room = [0xEE; 9];
        assert_eq!(slot.block_taken(&mut room), Ok(Bytes(8)));
        assert_eq!(room, [16, 17, 18, 19, 20, 21, 22, 23, 0xEE]);
        let failed = slot.turn(&mut memory()[..31]).unwrap();
        assert_eq!((failed.moved, failed.error.unwrap().byte()), (Bytes(0), 3));
        assert_eq!(slot.registers.byte(ADMA_ERROR), 3);
        assert_eq!(slot.registers.word(ADMA_ADDRESS), 8);
        assert!(!slot.transfer_runs());
    }

    #[test]
    fn a73_nothing_of_a_move_is_done_when_memory_is_too_short() {
        let mut slot = slot_with(Direction::Read);
        assert_eq!(slot.block_given(&[1, 2, 3, 4, 5, 6, 7, 8]), Ok(Bytes(8)));
        let mut short = memory()[..23].to_vec();
        let before = short.clone();
        let failed = slot.turn(&mut short).unwrap();
        assert_eq!((failed.moved, failed.error.unwrap().byte()), (Bytes(0), 3));
        assert_eq!(short, before);
    }

    #[test]
    fn memory_that_shrinks_between_turns_may_still_be_refused_for_the_buffer() {
        let mut slot = slot_with(Direction::Read);
        assert_eq!(slot.turn(&mut []), Err(Refusal::NotYet));
    }

    #[test]
    fn answer_8_when_the_room_is_below_the_block() {
        let mut slot = slot_with(Direction::Write);
        assert_eq!(slot.block_taken(&mut []), Err(Refusal::OutOfTurn));
        assert_eq!(slot.turn(&mut memory()), Ok(well(8)));
        let before = slot.clone();
        let mut room = [0xEE; 7];
        assert_eq!(slot.block_taken(&mut room), Err(Refusal::WrongBlock));
        assert!(slot == before && room == [0xEE; 7]);
    }

    #[test]
    fn answer_8_when_the_block_has_another_length() {
        let mut slot = slot_with(Direction::Read);
        let before = slot.clone();
        assert_eq!(slot.block_given(&[0; 7]), Err(Refusal::WrongBlock));
        assert_eq!(slot.block_given(&[0; 9]), Err(Refusal::WrongBlock));
        assert!(slot == before);
    }
}
