//! One run over the library: a slot, the memory lent to its turns, the card's bytes and the room
//! for a taken block, all as a run of the reference has them.

use reference::Step;
use runtext::kinds;
use sdhc::{Answer, DataError, Response, Slot};

/// The room a run lends for a taken block.
const ROOM: usize = 512;
/// No access of a run file is wider.
const WIDEST: usize = 255;

pub struct Run {
    pub slot: Slot,
    pub memory: Vec<u8>,
    pub room: [u8; ROOM],
    card: Vec<u8>,
    used: usize,
}

/// What the library answers; nothing for a step that its types cannot say.
pub type Said = Result<Option<Answer>, String>;

impl Run {
    pub fn new(memory: Vec<u8>, card: Vec<u8>) -> Run {
        Run {
            slot: Slot::power_on(),
            memory,
            room: [0; ROOM],
            card,
            used: 0,
        }
    }

    /// Does one step of a good file. What the types of the library leave no word for (a number
    /// of a response or a data error that there is not, a value too big for its width) is not
    /// done at all: the reference has to refuse it.
    pub fn step(&mut self, step: &Step) -> Said {
        let answer = match step.kind {
            kinds::WRITE => return Ok(self.write(step)),
            kinds::READ => return self.read(step).map(Some),
            kinds::RESPONSE => return Ok(self.respond(step)),
            kinds::DATA_ERROR => return Ok(self.data_error(step.detail)),
            kinds::IN => self.slot.card_in(),
            kinds::OUT => self.slot.card_out(),
            kinds::GIVEN => self.given(),
            kinds::TAKEN => self.slot.taken(&mut self.room),
            kinds::BUSY_OVER => self.slot.busy_over(),
            kinds::LEVEL => self.slot.set_level(step.detail != 0),
            kinds::TURN => self.slot.turn(&mut self.memory),
            other => return Err(format!("a step of kind {other} is in no good file")),
        };
        Ok(Some(answer))
    }

    fn write(&mut self, step: &Step) -> Option<Answer> {
        let [value, ..] = step.words;
        let width = usize::from(step.detail);
        let fits = match width {
            1 | 2 => value >> (8 * width) == 0,
            _ => true,
        };
        let mut data = [0; WIDEST];
        data[..4].copy_from_slice(&value.to_le_bytes());
        fits.then(|| self.slot.mmio_write(u64::from(step.offset), &data[..width]))
    }

    // What a guest gets of a read is its data, so they have to be the value, and no more.
    fn read(&mut self, step: &Step) -> Result<Answer, String> {
        let width = usize::from(step.detail);
        let mut data = [0xEE; WIDEST];
        let answer = self
            .slot
            .mmio_read(u64::from(step.offset), &mut data[..width]);
        let mut expected = [0xEE; WIDEST];
        if answer.done() && width <= 4 {
            expected[..width].copy_from_slice(&answer.value.to_le_bytes()[..width]);
        }
        match data == expected {
            true => Ok(answer),
            false => Err("the data of a read are not its value".to_string()),
        }
    }

    fn respond(&mut self, step: &Step) -> Option<Answer> {
        let response = match step.detail {
            0 => Response::Good,
            1 => Response::Timeout,
            2 => Response::Crc,
            3 => Response::EndBit,
            4 => Response::Index,
            _ => return None,
        };
        Some(self.slot.respond(response, step.words))
    }

    fn data_error(&mut self, number: u8) -> Option<Answer> {
        let error = match number {
            0 => DataError::Timeout,
            1 => DataError::Crc,
            2 => DataError::EndBit,
            _ => return None,
        };
        Some(self.slot.data_error(error))
    }

    // The next block-size card bytes, or what is left of them, used up only on answer 0.
    fn given(&mut self) -> Answer {
        let size = self.block_size();
        let left = &self.card[self.used..];
        let block = &left[..size.min(left.len())];
        let answer = self.slot.given(block);
        if answer.done() {
            self.used += block.len();
        }
        answer
    }

    /// The 12-bit field of 004h as it stands.
    pub fn block_size(&mut self) -> usize {
        let mut field = [0; 2];
        self.slot.mmio_read(0x004, &mut field);
        usize::from(u16::from_le_bytes(field) & 0x0FFF)
    }
}

#[cfg(test)]
mod tests {
    use super::*;

    fn run() -> Run {
        Run::new(Vec::new(), vec![1, 2, 3])
    }

    #[test]
    fn steps_that_the_types_cannot_say_are_not_done() {
        let mut run = run();
        for step in [
            kinds::write(0x02F, 1, 0x100),
            kinds::write(0x02E, 2, 0x0001_0000),
            kinds::response(5, [0; 4]),
            kinds::detailed(kinds::DATA_ERROR, 3),
        ] {
            assert_eq!(run.step(&step), Ok(None), "{step:?}");
        }
        assert!(run.step(&kinds::plain(11)).is_err());
    }

    #[test]
    fn wide_accesses_are_said_and_refused() {
        let mut run = run();
        for width in [0, 3, 5, 8, 255] {
            for step in [kinds::read(0x024, width), kinds::write(0x024, width, 1)] {
                let answer = run.step(&step).unwrap().unwrap();
                assert_eq!(answer.number as u32, 1, "{step:?}");
            }
        }
    }

    #[test]
    fn a_refused_block_is_still_the_card_s() {
        let mut run = run();
        assert_eq!(run.given().number as u32, 7);
        assert_eq!(run.used, 0);
    }
}
