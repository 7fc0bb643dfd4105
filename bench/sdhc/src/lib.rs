//! A proved SD host controller for one slot, as a device model of a virtual machine monitor holds it.
//!
//! Every step is a call into the archive that `tools/archive` writes, whose functions are proved to do what document 01
//! says. This crate only passes arguments and shapes results; it keeps nothing of its own.
//!
//! ```
//! let mut slot = sdhc::Slot::power_on();
//! slot.card_in();
//! let mut word = [0; 4];
//! assert!(slot.mmio_read(0x024, &mut word).done());
//! assert_eq!(u32::from_le_bytes(word), 0x01FF0000);
//! ```

mod answer;
mod line;
mod raw;
mod slot;

pub use answer::{Answer, Number};
pub use line::{boot_check, read_line, survey, write_line, Boot, Kind, Line, Survey};
pub use raw::{Adma, Command, Control, Dat, Interrupts, Record, Registers, Reply, Setup, Stage};
pub use slot::{DataError, Response, Slot, BLOCK};
