//! The things a comparison must have met to mean anything.

use runtext::interrupts;
use std::fmt;

/// One thing to be met.
#[derive(Clone, Copy, Debug, PartialEq, Eq, PartialOrd, Ord)]
pub enum Item {
    /// An answer number.
    Answer(u32),
    /// Answer 7 to a step of this kind.
    OutOfTurn(u8),
    /// A 054h byte, in a read or in a write.
    Fault { byte: u8, read: bool },
    /// A bit of 030h, or of 032h from 16 on, raised by an event or a turn.
    Raised(u32),
    /// A bit of 032h, counted from 16, raised by a write to 052h.
    Forced(u32),
    /// Bits 2-0 written to 02Fh by an access of this width.
    Reset { bits: u8, width: u8 },
    /// A read that ended well, by a turn.
    ReadComplete,
    /// A write that ended well, by the last block taken.
    WriteCompleteByBlock,
    /// A write that ended well, by the turn that read End.
    WriteCompleteByTurn,
    /// A busy that was over.
    BusyOver,
    /// A file that is none.
    BadFile,
}

/// Answer 11 asks for more memory than a run file can hold, so it is left out.
const LAST_ANSWER: u32 = 10;
/// Only these bits are ever raised; 7 and 8 of 032h have to be forced.
const RAISED: [u32; 14] = [0, 1, 3, 6, 7, 8, 16, 17, 18, 19, 20, 21, 22, 25];

/// All of them, in the order they are printed.
pub fn all() -> Vec<Item> {
    let mut items = of_steps();
    items.push(Item::BadFile);
    items
}

/// Those that steps can meet, whatever they were read from.
pub fn of_steps() -> Vec<Item> {
    let mut items: Vec<Item> = (0..=LAST_ANSWER).map(Item::Answer).collect();
    items.extend((2..=9).map(Item::OutOfTurn));
    for byte in [1, 3, 4, 7] {
        items.extend([true, false].map(|read| Item::Fault { byte, read }));
    }
    items.extend(RAISED.map(Item::Raised));
    items.extend((16..=25).map(Item::Forced));
    for bits in 1..=7 {
        items.extend([1, 2, 4].map(|width| Item::Reset { bits, width }));
    }
    items.extend([
        Item::ReadComplete,
        Item::WriteCompleteByBlock,
        Item::WriteCompleteByTurn,
        Item::BusyOver,
    ]);
    items
}

impl fmt::Display for Item {
    fn fmt(&self, out: &mut fmt::Formatter) -> fmt::Result {
        match self {
            Item::Answer(number) => write!(out, "answer {number}"),
            Item::OutOfTurn(kind) => write!(out, "answer 7 to a step of kind {kind}"),
            Item::Fault { byte, read } => {
                let way = if *read { "read" } else { "write" };
                write!(out, "054h byte {byte:02X}h in a {way}")
            }
            Item::Raised(bit) => write!(out, "{} raised", bit_name(*bit)),
            Item::Forced(bit) => write!(out, "{} forced", bit_name(*bit)),
            Item::Reset { bits, width } => {
                write!(out, "reset {bits:03b}b by an access of width {width}")
            }
            Item::ReadComplete => write!(out, "read complete"),
            Item::WriteCompleteByBlock => write!(out, "write complete by its last block"),
            Item::WriteCompleteByTurn => write!(out, "write complete by a turn"),
            Item::BusyOver => write!(out, "busy over"),
            Item::BadFile => write!(out, "bad file"),
        }
    }
}

fn bit_name(bit: u32) -> String {
    let (register, place) = if bit < 16 {
        ("030h", bit)
    } else {
        ("032h", bit - 16)
    };
    let name = interrupts::name(bit).unwrap_or("unnamed");
    format!("{register} bit {place}, {name}")
}
