//! One slot: the record, its one-block buffer, and the steps.

use crate::answer::Answer;
use crate::raw::{self, Record};

/// The buffer is one block, and a block has at most this many bytes.
pub const BLOCK: usize = 512;

/// How the card answers a command.
#[derive(Clone, Copy, Debug, PartialEq, Eq)]
pub enum Response {
    Good = 0,
    Timeout = 1,
    Crc = 2,
    EndBit = 3,
    Index = 4,
}

/// How a data transfer or a busy goes wrong on the card's side.
#[derive(Clone, Copy, Debug, PartialEq, Eq)]
pub enum DataError {
    Timeout = 0,
    Crc = 1,
    EndBit = 2,
}

/// One slot of the controller. One caller at a time; it owns everything it needs and keeps no pointer to what it is lent.
/// The buffer stands first, at the start of a line of the cache: blocks are copied faster from there.
#[derive(Clone, Debug, PartialEq, Eq)]
#[repr(C, align(64))]
pub struct Slot {
    buffer: [u8; BLOCK],
    record: Record,
}

impl Slot {
    /// A slot at power-on: no card, nothing waits, the DAT side is free.
    pub fn power_on() -> Slot {
        Slot {
            record: unsafe { raw::sdhc_power_on() },
            buffer: [0; BLOCK],
        }
    }

    /// Is the interrupt line up?
    #[inline]
    pub fn line(&self) -> bool {
        unsafe { raw::sdhc_line(self.record) }
    }

    /// A register read of 1, 2 or 4 bytes, little-endian. `data` is filled only if the answer is 0.
    #[inline]
    pub fn mmio_read(&mut self, offset: u64, data: &mut [u8]) -> Answer {
        let (place, width) = access(offset, data.len());
        let answer = Answer::from_raw(unsafe { raw::sdhc_read(&mut self.record, place, width) });
        if answer.done() {
            let value = answer.value.to_le_bytes();
            match data {
                [a] => *a = value[0],
                [a, b] => [*a, *b] = [value[0], value[1]],
                [a, b, c, d] => [*a, *b, *c, *d] = value,
                // No other width is done.
                _ => {}
            }
        }
        answer
    }

    /// A register write of 1, 2 or 4 bytes, little-endian.
    #[inline]
    pub fn mmio_write(&mut self, offset: u64, data: &[u8]) -> Answer {
        let (place, width) = access(offset, data.len());
        // Another width is refused whatever the value.
        let value = match *data {
            [a] => u32::from(a),
            [a, b] => u32::from(u16::from_le_bytes([a, b])),
            [a, b, c, d] => u32::from_le_bytes([a, b, c, d]),
            _ => 0,
        };
        Answer::from_raw(unsafe { raw::sdhc_write(&mut self.record, place, width, value) })
    }

    /// A card comes in.
    #[inline]
    pub fn card_in(&mut self) -> Answer {
        Answer::from_raw(unsafe { raw::sdhc_card_in(&mut self.record) })
    }

    /// The card goes out.
    #[inline]
    pub fn card_out(&mut self) -> Answer {
        Answer::from_raw(unsafe { raw::sdhc_card_out(&mut self.record) })
    }

    /// The card answers the command that waits, with four words of which its response type takes none, one or four.
    #[inline]
    pub fn respond(&mut self, response: Response, words: [u32; 4]) -> Answer {
        let [first, second, third, fourth] = words;
        Answer::from_raw(unsafe {
            raw::sdhc_respond(
                &mut self.record,
                response as u32,
                first,
                second,
                third,
                fourth,
            )
        })
    }

    /// The card's interrupt level.
    #[inline]
    pub fn set_level(&mut self, up: bool) -> Answer {
        Answer::from_raw(unsafe { raw::sdhc_set_level(&mut self.record, up as u32) })
    }

    /// The busy of a response is over.
    #[inline]
    pub fn busy_over(&mut self) -> Answer {
        Answer::from_raw(unsafe { raw::sdhc_busy_over(&mut self.record) })
    }

    /// The card reports an error on its data lines.
    #[inline]
    pub fn data_error(&mut self, error: DataError) -> Answer {
        Answer::from_raw(unsafe { raw::sdhc_data_error(&mut self.record, error as u32) })
    }

    /// The card gives a block of a read.
    #[inline]
    pub fn given(&mut self, block: &[u8]) -> Answer {
        Answer::from_raw(unsafe {
            raw::sdhc_given(
                &mut self.record,
                &mut self.buffer,
                block.as_ptr(),
                block.len(),
            )
        })
    }

    /// The card takes a block of a write, into the first bytes of `room`.
    #[inline]
    pub fn taken(&mut self, room: &mut [u8]) -> Answer {
        Answer::from_raw(unsafe {
            raw::sdhc_taken(
                &mut self.record,
                &self.buffer,
                room.as_mut_ptr(),
                room.len(),
            )
        })
    }

    /// A turn of the engine over the guest's memory, which stands for addresses from 0.
    #[inline]
    pub fn turn(&mut self, memory: &mut [u8]) -> Answer {
        Answer::from_raw(unsafe {
            raw::sdhc_turn(
                &mut self.record,
                &mut self.buffer,
                memory.as_mut_ptr(),
                memory.len(),
            )
        })
    }

    /// The record, to look at or to keep.
    #[inline]
    pub fn record(&self) -> &Record {
        &self.record
    }

    /// The buffer, to look at or to keep.
    #[inline]
    pub fn buffer(&self) -> &[u8; BLOCK] {
        &self.buffer
    }

    /// A slot from what was kept of one. Every record has a meaning.
    pub fn restored(record: Record, buffer: [u8; BLOCK]) -> Slot {
        Slot { record, buffer }
    }
}

// An access in the archive's numbers. What does not fit them becomes their largest, which names no place, as it must; a width
// that is not 1, 2 or 4 is refused by the archive itself.
#[inline]
fn access(offset: u64, length: usize) -> (u32, u32) {
    (
        offset.try_into().unwrap_or(u32::MAX),
        length.try_into().unwrap_or(u32::MAX),
    )
}
