//! How often each thing to be met was met.

use crate::items::Item;
use reference::{Machine, RunFile, Seen, Step};
use runtext::kinds;
use std::collections::BTreeMap;

const DAT_INHIBIT: u32 = 1 << 1;
const WRITE_ACTIVE: u32 = 1 << 8;
const READ_ACTIVE: u32 = 1 << 9;

/// Counts by item.
#[derive(Default)]
pub struct Tally(BTreeMap<Item, u64>);

impl Tally {
    /// Counts all a file does, by the reference.
    pub fn count(&mut self, bytes: &[u8]) {
        let Some(file) = reference::parse(bytes) else {
            self.met(Item::BadFile);
            return;
        };
        let RunFile {
            memory,
            steps,
            card,
        } = file;
        let mut slot = Machine::new(memory, card);
        for step in &steps {
            let before = slot.peek(0x024);
            let seen = slot.step(step);
            let after = slot.peek(0x024);
            self.step(step, &seen, before, after);
        }
    }

    /// Counts one step by what is seen of it and by Present State before and after it.
    pub fn step(&mut self, step: &Step, seen: &Seen, before: u32, after: u32) {
        self.seen(step, seen);
        self.dat(step, seen, before, after);
    }

    fn seen(&mut self, step: &Step, seen: &Seen) {
        self.met(Item::Answer(seen.answer));
        if seen.answer == 7 {
            self.met(Item::OutOfTurn(step.kind));
        }
        if seen.resets != 0 {
            self.met(Item::Reset {
                bits: seen.resets,
                width: step.detail,
            });
        }
        let errors = seen.raised & 0xFFFF_0000;
        for bit in (0..32).filter(|bit| seen.raised >> bit & 1 == 1) {
            // Writes raise errors by force alone, and the card's level by its enable.
            if step.kind == kinds::WRITE && errors >> bit & 1 == 1 {
                self.met(Item::Forced(bit));
            } else {
                self.met(Item::Raised(bit));
            }
        }
    }

    // What became of the DAT side, by Present State before and after the step.
    fn dat(&mut self, step: &Step, seen: &Seen, before: u32, after: u32) {
        let read = before & READ_ACTIVE != 0;
        if let Some(byte) = seen.fault {
            self.met(Item::Fault { byte, read });
        }
        if before & DAT_INHIBIT == 0 || after & DAT_INHIBIT != 0 {
            return;
        }
        let write = before & WRITE_ACTIVE != 0;
        match step.kind {
            kinds::TURN if read => self.met(Item::ReadComplete),
            kinds::TURN if write => self.met(Item::WriteCompleteByTurn),
            kinds::TAKEN => self.met(Item::WriteCompleteByBlock),
            kinds::BUSY_OVER => self.met(Item::BusyOver),
            _ => {}
        }
    }

    fn met(&mut self, item: Item) {
        *self.0.entry(item).or_default() += 1;
    }

    fn times(&self, item: Item) -> u64 {
        self.0.get(&item).copied().unwrap_or(0)
    }

    /// Those of the items that were never met.
    pub fn missing(&self, items: &[Item]) -> Vec<Item> {
        let never = |item: &&Item| self.times(**item) == 0;
        items.iter().filter(never).copied().collect()
    }

    /// Each item with its count, one a line.
    pub fn table(&self, items: &[Item]) -> String {
        items
            .iter()
            .map(|item| format!("{:>10}  {item}\n", self.times(*item)))
            .collect()
    }
}

#[cfg(test)]
mod tests {
    use super::*;
    use crate::items;

    fn counted(text: &str) -> Tally {
        let file = runtext::to_file(text).expect("a text");
        let mut tally = Tally::default();
        tally.count(&reference::encode(&file));
        tally
    }

    #[test]
    fn a_bad_file_is_one() {
        let mut tally = Tally::default();
        tally.count(&[]);
        assert_eq!(tally.times(Item::BadFile), 1);
    }

    #[test]
    fn events_force_and_refusals_are_told_apart() {
        let tally = counted("write 034h/4 0FFFFFFFFh\nin\nin\nwrite 052h/2 180h\n");
        assert_eq!(tally.times(Item::Answer(0)), 3);
        assert_eq!(tally.times(Item::OutOfTurn(kinds::IN)), 1);
        assert_eq!(tally.times(Item::Raised(6)), 1);
        assert_eq!(tally.times(Item::Forced(23)), 1);
        assert_eq!(tally.times(Item::Forced(24)), 1);
        assert_eq!(tally.times(Item::Raised(23)), 0);
    }

    #[test]
    fn resets_count_by_width() {
        let tally = counted("write 02Fh/1 6\nwrite 02Ch/4 0FF000000h\n");
        assert_eq!(tally.times(Item::Reset { bits: 6, width: 1 }), 1);
        assert_eq!(tally.times(Item::Reset { bits: 7, width: 4 }), 1);
    }

    #[test]
    fn most_is_missing_at_first() {
        assert_eq!(Tally::default().missing(&items::all()), items::all());
    }
}
