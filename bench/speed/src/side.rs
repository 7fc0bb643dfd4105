//! The two contenders under one set of names. The names are thin: each is one call of the
//! contender's own, and is compiled into the loop that measures it.

use reference::{Bytes, Refusal};
use sdhc::Response;

/// The number of an answer and its value.
pub type Answer = (u32, u32);

pub trait Side: Clone {
    fn power_on() -> Self;
    fn card_in(&mut self) -> Answer;
    fn read4(&mut self, offset: u8) -> Answer;
    fn write1(&mut self, offset: u8, value: u8) -> Answer;
    fn write2(&mut self, offset: u8, value: u16) -> Answer;
    fn write4(&mut self, offset: u8, value: u32) -> Answer;
    /// A good response.
    fn respond(&mut self) -> Answer;
    fn turn(&mut self, memory: &mut [u8]) -> Answer;
    fn given(&mut self, block: &[u8]) -> Answer;
    fn taken(&mut self, room: &mut [u8]) -> Answer;
    /// The number and kind of a survey, and the lines it tried.
    fn survey(memory: &[u8], owed: u32, limit: u32) -> (u32, u32, u32);
}

/// The proved library.
pub type Library = sdhc::Slot;
/// The second implementation.
pub type Reference = reference::Slot;

#[inline(always)]
fn told(answer: sdhc::Answer) -> Answer {
    (answer.number as u32, answer.value)
}

impl Side for Library {
    #[inline(always)]
    fn power_on() -> Library {
        sdhc::Slot::power_on()
    }

    #[inline(always)]
    fn card_in(&mut self) -> Answer {
        told(sdhc::Slot::card_in(self))
    }

    // What a guest gets of a read is its data.
    #[inline(always)]
    fn read4(&mut self, offset: u8) -> Answer {
        let mut data = [0; 4];
        let answer = self.mmio_read(u64::from(offset), &mut data);
        (answer.number as u32, u32::from_le_bytes(data))
    }

    #[inline(always)]
    fn write1(&mut self, offset: u8, value: u8) -> Answer {
        told(self.mmio_write(u64::from(offset), &[value]))
    }

    #[inline(always)]
    fn write2(&mut self, offset: u8, value: u16) -> Answer {
        told(self.mmio_write(u64::from(offset), &value.to_le_bytes()))
    }

    #[inline(always)]
    fn write4(&mut self, offset: u8, value: u32) -> Answer {
        told(self.mmio_write(u64::from(offset), &value.to_le_bytes()))
    }

    #[inline(always)]
    fn respond(&mut self) -> Answer {
        told(sdhc::Slot::respond(self, Response::Good, [0x900, 0, 0, 0]))
    }

    #[inline(always)]
    fn turn(&mut self, memory: &mut [u8]) -> Answer {
        told(sdhc::Slot::turn(self, memory))
    }

    #[inline(always)]
    fn given(&mut self, block: &[u8]) -> Answer {
        told(sdhc::Slot::given(self, block))
    }

    #[inline(always)]
    fn taken(&mut self, room: &mut [u8]) -> Answer {
        told(sdhc::Slot::taken(self, room))
    }

    #[inline(always)]
    fn survey(memory: &[u8], owed: u32, limit: u32) -> (u32, u32, u32) {
        let found = sdhc::survey(memory, 0, owed, limit);
        (found.number as u32, found.kind as u32, found.lines)
    }
}

#[inline(always)]
fn done(result: Result<(), Refusal>) -> Answer {
    match result {
        Ok(()) => (0, 0),
        Err(refusal) => (refusal.number(), 0),
    }
}

#[inline(always)]
fn moved(result: Result<Bytes, Refusal>) -> Answer {
    match result {
        Ok(bytes) => (0, bytes.0),
        Err(refusal) => (refusal.number(), 0),
    }
}

impl Side for Reference {
    #[inline(always)]
    fn power_on() -> Reference {
        reference::Slot::power_on()
    }

    #[inline(always)]
    fn card_in(&mut self) -> Answer {
        done(self.card_comes_in())
    }

    #[inline(always)]
    fn read4(&mut self, offset: u8) -> Answer {
        moved(self.read(u32::from(offset), 4).map(Bytes))
    }

    #[inline(always)]
    fn write1(&mut self, offset: u8, value: u8) -> Answer {
        done(self.write(u32::from(offset), 1, u32::from(value)))
    }

    #[inline(always)]
    fn write2(&mut self, offset: u8, value: u16) -> Answer {
        done(self.write(u32::from(offset), 2, u32::from(value)))
    }

    #[inline(always)]
    fn write4(&mut self, offset: u8, value: u32) -> Answer {
        done(self.write(u32::from(offset), 4, value))
    }

    #[inline(always)]
    fn respond(&mut self) -> Answer {
        done(self.response(0, [0x900, 0, 0, 0]))
    }

    #[inline(always)]
    fn turn(&mut self, memory: &mut [u8]) -> Answer {
        moved(reference::Slot::turn(self, memory).map(|turned| turned.moved))
    }

    #[inline(always)]
    fn given(&mut self, block: &[u8]) -> Answer {
        moved(self.block_given(block))
    }

    #[inline(always)]
    fn taken(&mut self, room: &mut [u8]) -> Answer {
        moved(self.block_taken(room))
    }

    #[inline(always)]
    fn survey(memory: &[u8], owed: u32, limit: u32) -> (u32, u32, u32) {
        let found = reference::survey(memory, 0, owed, limit);
        (found.answer, found.kind, found.lines)
    }
}
