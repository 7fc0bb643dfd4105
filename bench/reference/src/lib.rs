//! A second, independent program for the SD host controller of the paper.
//!
//! It exists to be compared: it was written from the paper alone, so that a mistake in
//! another program is unlikely to be repeated here. The modules follow the paper's sections.
//!
//! * `answers`: the numbers a step answers with.
//! * `counters`: blocks and bytes, two counters that never mix.
//! * `registers`: the register block and the places an access can name.
//! * `slot`: the one record of a slot, guest reads and writes, resets.
//! * `interrupts`: status, enables and the line.
//! * `commands`: judging and issuing a command.
//! * `card`: the card's events.
//! * `lines`: descriptor lines, shown and written.
//! * `turns`: the transfer and the engine's turns.
//! * `survey`: following a table without a transfer.
//! * `runfile`: the run file's bytes.
//! * `machine`: one run: a slot, its memory and its card bytes.
//! * `faults`: rules broken on purpose, only for tests of the comparison.

mod answers;
mod card;
mod commands;
mod counters;
mod faults;
mod interrupts;
mod lines;
mod machine;
mod registers;
mod runfile;
mod slot;
mod survey;
mod turns;

pub use answers::Refusal;
pub use counters::Bytes;
pub use faults::Fault;
pub use lines::{read_line, write_line};
pub use machine::{run, run_with, Machine, Seen};
pub use runfile::{encode, parse, RunFile, Step};
pub use slot::Slot;
pub use survey::{boot_check, survey, Survey};
pub use turns::Turned;
