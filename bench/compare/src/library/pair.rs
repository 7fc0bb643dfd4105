//! The library and the reference side by side: each step goes into both, and all of both is then
//! held against each other.

use super::look::{self, Before};
use super::run::{Run, Said};
use reference::{Fault, Machine, RunFile, Seen, Step};

pub struct Pair {
    pub run: Run,
    pub machine: Machine,
}

impl Pair {
    /// Both at power-on, with the same memory, card bytes and room. A fault is the reference's.
    pub fn new(file: &RunFile, fault: Option<Fault>) -> Pair {
        Pair {
            run: Run::new(file.memory.clone(), file.card.clone()),
            machine: Machine::with_fault(file.memory.clone(), file.card.clone(), fault),
        }
    }

    /// A step of a run file: what the reference shows of it, or what differs after it.
    pub fn step(&mut self, step: &Step) -> Result<Seen, String> {
        self.both(|run| run.step(step), |machine| machine.step(step))
    }

    /// The same thing done to both.
    pub fn both(
        &mut self,
        library: impl FnOnce(&mut Run) -> Said,
        reference: impl FnOnce(&mut Machine) -> Seen,
    ) -> Result<Seen, String> {
        let before = Before::of(&self.run.slot);
        let said = library(&mut self.run)?;
        let seen = reference(&mut self.machine);
        let (number, value) = match said {
            Some(answer) => (answer.number as u32, answer.value),
            None => (unsaid(&seen)?, 0),
        };
        if (number, value) != (seen.answer, seen.value) {
            return Err(format!(
                "the answer: library {number} with {value:08X}h, reference {} with {:08X}h",
                seen.answer, seen.value
            ));
        }
        if number != 0 {
            before.is_kept(&self.run.slot)?;
        }
        look::at(&mut self.run, &self.machine, &seen, &before)?;
        Ok(seen)
    }
}

// What the library has no word for names no place or is out of turn.
fn unsaid(seen: &Seen) -> Result<u32, String> {
    match seen.answer {
        1 | 7 => Ok(seen.answer),
        other => Err(format!(
            "the reference answers {other} to what the library cannot be told"
        )),
    }
}

#[cfg(test)]
mod tests {
    use super::*;
    use runtext::kinds;

    fn pair(fault: Option<Fault>) -> Pair {
        let file = runtext::to_file("memory zeros 16\n").unwrap();
        Pair::new(&file, fault)
    }

    #[test]
    fn both_go_the_same_way() {
        let mut pair = pair(None);
        assert_eq!(pair.step(&kinds::plain(kinds::IN)).unwrap().answer, 0);
        assert_eq!(pair.step(&kinds::plain(kinds::IN)).unwrap().answer, 7);
        let seen = pair.step(&kinds::read(0x024, 4)).unwrap();
        assert_eq!(seen.value, 0x01FF_0000);
        assert_eq!(pair.step(&kinds::response(5, [0; 4])).unwrap().answer, 7);
    }

    #[test]
    fn a_register_that_differs_is_told() {
        let mut pair = pair(Some(Fault::EventNeedsNoEnable));
        let told = pair.step(&kinds::plain(kinds::IN)).unwrap_err();
        assert_eq!(
            told,
            "030h: library 00000000h with answer 0, reference 00000040h"
        );
    }

    #[test]
    fn memory_that_differs_is_told() {
        let mut pair = pair(None);
        pair.run.memory[3] = 1;
        let told = pair.step(&kinds::read(0, 4)).unwrap_err();
        assert_eq!(told, "memory at 3h: library 01h, reference 00h");
    }
}
