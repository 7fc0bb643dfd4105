//! The stored run files through the wrapper, entry by entry: the text that the run program prints, and beside it the second
//! implementation's memory and taken blocks after every step.

use std::fmt::Write;
use std::fs;
use std::path::{Path, PathBuf};

use reference::{parse, Machine, RunFile, Step};
use sdhc::{Answer, DataError, Number, Response, Slot};

struct Run {
    slot: Slot,
    memory: Vec<u8>,
    card: Vec<u8>,
    room: [u8; 512],
}

const OUT_OF_TURN: Answer = Answer {
    number: Number::OutOfTurn,
    value: 0,
};

impl Run {
    /// Data of a width that no register has is refused whatever it holds. A value that does not fit its width cannot be put as
    /// data, and no stored run has one.
    fn write(&mut self, step: &Step) -> Answer {
        let mut data = step.words[0].to_le_bytes().to_vec();
        data.resize(data.len().max(step.detail.into()), 0);
        let (data, surplus) = data.split_at(step.detail.into());
        assert!(
            step.detail > 4 || surplus.iter().all(|byte| *byte == 0),
            "a value that fits"
        );
        self.slot.mmio_write(step.offset.into(), data)
    }

    fn read(&mut self, step: &Step) -> Answer {
        self.slot
            .mmio_read(step.offset.into(), &mut vec![0; step.detail.into()])
    }

    fn respond(&mut self, step: &Step) -> Answer {
        let response = match step.detail {
            0 => Response::Good,
            1 => Response::Timeout,
            2 => Response::Crc,
            3 => Response::EndBit,
            4 => Response::Index,
            _ => return OUT_OF_TURN,
        };
        self.slot.respond(response, step.words)
    }

    fn data_error(&mut self, step: &Step) -> Answer {
        let error = match step.detail {
            0 => DataError::Timeout,
            1 => DataError::Crc,
            2 => DataError::EndBit,
            _ => return OUT_OF_TURN,
        };
        self.slot.data_error(error)
    }

    /// Offers the next block of card bytes, or what is left; they are used up only if they are taken.
    fn give(&mut self) -> Answer {
        let mut size = [0; 2];
        assert!(self.slot.mmio_read(0x004, &mut size).done());
        let size = usize::from(u16::from_le_bytes(size) & 0x0FFF).min(self.card.len());
        let answer = self.slot.given(&self.card[..size]);
        if answer.done() {
            self.card.drain(..size);
        }
        answer
    }

    fn step(&mut self, step: &Step) -> Answer {
        match step.kind {
            0 => self.write(step),
            1 => self.read(step),
            2 => self.slot.card_in(),
            3 => self.slot.card_out(),
            4 => self.respond(step),
            5 => self.give(),
            6 => self.slot.taken(&mut self.room),
            7 => self.slot.busy_over(),
            8 => self.data_error(step),
            9 => self.slot.set_level(step.detail != 0),
            _ => self.slot.turn(&mut self.memory),
        }
    }
}

/// The text of a run, held against the second implementation as it goes.
fn printed(file: &RunFile) -> String {
    let mut machine = Machine::new(file.memory.clone(), file.card.clone());
    let mut run = Run {
        slot: Slot::power_on(),
        memory: file.memory.clone(),
        card: file.card.clone(),
        room: [0; 512],
    };
    let mut text = format!("steps {}\n", file.steps.len());
    for (number, step) in file.steps.iter().enumerate() {
        let answer = run.step(step);
        machine.step(step);
        assert!(run.memory == machine.memory(), "memory after step {number}");
        assert!(run.room == machine.taken(), "room after step {number}");
        let line = u8::from(run.slot.line());
        let _ = writeln!(
            text,
            "{number} {} {:08X} {line}",
            answer.number as u32, answer.value
        );
    }
    text
}

fn stored() -> Vec<PathBuf> {
    let folder = Path::new(env!("CARGO_MANIFEST_DIR")).join("../runs");
    let mut found: Vec<PathBuf> = fs::read_dir(folder)
        .expect("the folder of stored runs")
        .map(|entry| entry.expect("an entry of the folder").path())
        .filter(|path| path.extension().is_some_and(|ending| ending == "run"))
        .collect();
    found.sort();
    found
}

#[test]
fn the_stored_runs_print_what_is_stored() {
    let found = stored();
    assert!(
        found.len() >= 5,
        "the worked example and the recorded drivers"
    );
    for path in found {
        let bytes = fs::read(&path).expect("a run file");
        let file = parse(&bytes).expect("a good run file");
        let wanted = fs::read_to_string(path.with_extension("out")).expect("its stored output");
        assert!(
            printed(&file) == wanted,
            "{} prints something else",
            path.display()
        );
    }
}
