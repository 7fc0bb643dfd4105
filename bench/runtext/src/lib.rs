//! A readable notation for run files, both ways.
//!
//! One step a line; blank lines and all after `#` count for nothing:
//!
//! ```text
//! memory 23 00 08 00 10 00 00 00   # bytes of two hex digits; lines are joined
//! memory zeros 4096                # so many zeros
//! memory count 512                 # 00 01 02 and so on
//! memory at 100h 11 22 33          # at an address; a gap before it is zeros
//! card 01 02 03                    # the card's bytes, in the same forms
//! in
//! out
//! write 02Ch/2 5h                  # OFFSET/WIDTH VALUE
//! write clock/2 5                  # a register by name; clock+1 is its next byte
//! read 024h/4
//! response good 900h 0 0 0         # good, timeout, crc, end, index, or a number;
//!                                  # words left away are 0
//! given
//! taken
//! busy over
//! error crc                        # timeout, crc, end, or a number
//! level 1                          # or 0
//! turn
//! raw 11 0 0 0 0 0 0               # KIND DETAIL OFFSET W1 W2 W3 W4: any step
//! ```
//!
//! Numbers are hex with a trailing `h` or a leading `0x`, else decimal; offsets
//! must be hex. Capitals do not matter. Every good run file has a text, and a
//! file made into text and back is the same file.

mod access;
mod bad;
mod command;
pub mod difference;
pub mod interrupts;
pub mod kinds;
mod layout;
mod names;
mod number;
mod reader;
mod section;
mod show;
pub mod words;
mod writer;

pub use bad::why as why_bad;
pub use layout::layout;
pub use reader::{to_file, Fault, CARD_LIMIT, MEMORY_LIMIT, STEP_LIMIT};
pub use show::show;
pub use writer::{step_text, to_text};
