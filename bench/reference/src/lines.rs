//! Descriptor lines: shown as a part of memory, judged at the fetch, and written.

use crate::answers::{Refusal, DONE};
use crate::counters::Bytes;
use crate::faults::Fault;

const VALID: u8 = 0x01;
const END: u8 = 0x02;
const INT: u8 = 0x04;
const ACT1: u8 = 0x10;
const ACT2: u8 = 0x20;

/// The bytes of one line.
const LINE_BYTES: u32 = 8;
/// The longest length, written as 0.
const LONGEST: u32 = 65_536;

/// What a line asks for.
#[derive(Clone, Copy, Debug, PartialEq, Eq)]
pub enum Act {
    /// Move bytes.
    Tran,
    /// Go on at the line's address.
    Link,
    /// Only step on, be it Nop or the reserved combination.
    Step,
}

/// A line as the part of memory that holds it.
#[derive(Clone, Copy, Debug)]
pub struct Line<'a>(pub &'a [u8]);

impl Line<'_> {
    /// A part that is not a whole line reads as zeros.
    fn bytes(&self) -> [u8; 8] {
        self.0.try_into().unwrap_or_default()
    }

    fn flag(&self, flag: u8) -> bool {
        self.bytes()[0] & flag != 0
    }

    pub fn valid(&self) -> bool {
        self.flag(VALID)
    }

    pub fn end(&self) -> bool {
        self.flag(END)
    }

    pub fn int(&self) -> bool {
        self.flag(INT)
    }

    pub fn act(&self) -> Act {
        match (self.flag(ACT2), self.flag(ACT1)) {
            (true, false) => Act::Tran,
            (true, true) => Act::Link,
            (false, _) => Act::Step,
        }
    }

    /// Length 0 is the longest length, not none.
    pub fn length(&self) -> Bytes {
        let [_, _, low, high, ..] = self.bytes();
        match u16::from_le_bytes([low, high]) {
            0 => Bytes(LONGEST),
            length => Bytes(u32::from(length)),
        }
    }

    /// The length as the engine takes it.
    pub fn length_under(&self, fault: Option<Fault>) -> Bytes {
        if fault == Some(Fault::ZeroIsNoBytes) && self.length() == Bytes(LONGEST) {
            return Bytes::NONE;
        }
        self.length()
    }

    pub fn address(&self) -> u32 {
        let [_, _, _, _, address @ ..] = self.bytes();
        u32::from_le_bytes(address) & !3
    }
}

/// The eight bytes of memory at an address, or the empty part when not all of them are there.
pub fn line_at(memory: &[u8], at: u32) -> Line<'_> {
    Line(span(memory, at, Bytes(LINE_BYTES)).unwrap_or_default())
}

/// The part of memory from an address on, if it is all there. The sum is a true one.
pub fn span(memory: &[u8], at: u32, length: Bytes) -> Option<&[u8]> {
    let first = usize::try_from(at).ok()?;
    memory.get(first..first.checked_add(length.as_len())?)
}

/// The same part, to be written.
pub fn span_mut(memory: &mut [u8], at: u32, length: Bytes) -> Option<&mut [u8]> {
    let first = usize::try_from(at).ok()?;
    memory.get_mut(first..first.checked_add(length.as_len())?)
}

/// The state in which the engine met an error.
#[derive(Clone, Copy, Debug, PartialEq, Eq)]
enum State {
    Stop,
    Fetch,
    Transfer,
}

/// An error of the engine.
#[derive(Clone, Copy, Debug, PartialEq, Eq)]
pub struct EngineError {
    state: State,
    mismatch: bool,
}

impl EngineError {
    /// A line that is not there or not valid.
    pub const NO_LINE: EngineError = EngineError {
        state: State::Fetch,
        mismatch: false,
    };
    /// End with bytes still owed.
    pub const STILL_OWED: EngineError = EngineError {
        state: State::Stop,
        mismatch: true,
    };
    /// Memory that has become too short for a move.
    pub const MEMORY_SHORT: EngineError = EngineError {
        state: State::Transfer,
        mismatch: false,
    };

    /// The ADMA error byte.
    pub fn byte(self) -> u8 {
        let state = match self.state {
            State::Stop => 0b00,
            State::Fetch => 0b01,
            State::Transfer => 0b11,
        };
        state | u8::from(self.mismatch) << 2
    }
}

/// A line that was fetched: the address after it, and the line if it is sound.
pub struct Fetched<'a> {
    pub after: u32,
    pub line: Result<Line<'a>, EngineError>,
}

/// Fetches the line at an address. A line that is not there keeps the address; every other one
/// moves it on, also one that then proves unsound.
pub fn fetch(memory: &[u8], at: u32, owed: Bytes, fault: Option<Fault>) -> Fetched<'_> {
    let line = line_at(memory, at);
    if fault == Some(Fault::InvalidMovesOn) && !line.0.is_empty() && !line.valid() {
        return Fetched {
            after: at.wrapping_add(LINE_BYTES),
            line: Err(EngineError::NO_LINE),
        };
    }
    if !line.valid() {
        return Fetched {
            after: at,
            line: Err(EngineError::NO_LINE),
        };
    }
    let after = match line.act() {
        Act::Link => line.address(),
        // The line lies in memory, which ends far below the top of the address space.
        Act::Tran | Act::Step => at.wrapping_add(LINE_BYTES),
    };
    let line = match tran_error(memory, &line, owed, fault) {
        Some(error) => Err(error),
        None => Ok(line),
    };
    Fetched { after, line }
}

/// What is wrong with a Tran line, if anything: too long for what is owed, past memory.
fn tran_error(
    memory: &[u8],
    line: &Line,
    owed: Bytes,
    fault: Option<Fault>,
) -> Option<EngineError> {
    if line.act() != Act::Tran {
        return None;
    }
    let length = line.length_under(fault);
    let mut mismatch = length > owed;
    let past_memory = span(memory, line.address(), length).is_none();
    if fault == Some(Fault::ShortIsMismatch) {
        mismatch |= past_memory;
    }
    (mismatch || past_memory).then_some(EngineError {
        state: State::Transfer,
        mismatch,
    })
}

/// Writes a line from its flags (Valid, End, Int, Act1, Act2), length and address into a room
/// of eight bytes; the number of the answer.
pub fn write_line(room: &mut [u8], flags: [bool; 5], length: u32, address: u32) -> u32 {
    match line_bytes(flags, length, address) {
        Some(bytes) if room.len() == bytes.len() => {
            room.copy_from_slice(&bytes);
            DONE
        }
        _ => Refusal::UnwritableLine.number(),
    }
}

/// Reads a line: its flags (Valid, End, Int, Act1, Act2), length and address.
pub fn read_line(part: &[u8]) -> ([bool; 5], u32, u32) {
    let line = Line(part);
    let flags = [VALID, END, INT, ACT1, ACT2].map(|flag| line.flag(flag));
    (flags, line.length().0, line.address())
}

fn line_bytes(flags: [bool; 5], length: u32, address: u32) -> Option<[u8; 8]> {
    if length == 0 || length > LONGEST || !address.is_multiple_of(4) {
        return None;
    }
    let mut first = 0;
    for (set, flag) in flags.into_iter().zip([VALID, END, INT, ACT1, ACT2]) {
        if set {
            first |= flag;
        }
    }
    // The longest length does not fit its field and is written as 0.
    let [low, high] = u16::try_from(length).unwrap_or(0).to_le_bytes();
    let [a0, a1, a2, a3] = address.to_le_bytes();
    Some([first, 0, low, high, a0, a1, a2, a3])
}

#[cfg(test)]
mod tests {
    use super::*;

    #[test]
    fn a_part_that_is_no_line_reads_as_zeros() {
        for part in [&[][..], &[0xFF; 7][..], &[0xFF; 9][..]] {
            let line = Line(part);
            assert!(!line.valid() && !line.end() && !line.int());
            assert_eq!(line.act(), Act::Step);
            assert_eq!(line.length(), Bytes(65_536));
            assert_eq!(line.address(), 0);
        }
    }

    #[test]
    fn other_bits_of_a_line_are_ignored() {
        let line = Line(&[0xC8, 0xFF, 1, 2, 7, 0, 0, 0x80]);
        assert!(!line.valid() && !line.end() && !line.int());
        assert_eq!(line.act(), Act::Step);
        assert_eq!(line.length(), Bytes(0x201));
        assert_eq!(line.address(), 0x8000_0004);
        assert_eq!(Line(&[0x10, 0, 0, 0, 0, 0, 0, 0]).act(), Act::Step);
    }

    #[test]
    fn a_line_shows_only_when_all_its_bytes_are_there() {
        let memory = [0x21; 12];
        assert_eq!(line_at(&memory, 4).0.len(), 8);
        assert!(line_at(&memory, 5).0.is_empty());
        assert!(line_at(&memory, u32::MAX).0.is_empty());
    }

    #[test]
    fn the_bytes_after_a_span_are_no_part_of_a_true_sum() {
        let memory = [0; 16];
        assert!(span(&memory, 8, Bytes(8)).is_some());
        assert!(span(&memory, 8, Bytes(9)).is_none());
        assert!(span(&memory, 0xFFFF_FFFC, Bytes(8)).is_none());
    }

    #[test]
    fn a_written_line_gives_its_fields_back() {
        for choice in 0..32u32 {
            let flags = [0, 1, 2, 3, 4].map(|bit| choice >> bit & 1 != 0);
            for length in [1, 2, 512, 65_535, 65_536] {
                let mut room = [0xEE; 8];
                assert_eq!(write_line(&mut room, flags, length, 0xFFFF_FFFC), 0);
                let line = Line(&room);
                let act1 = matches!(room[0] & 0x10, 0x10);
                let act2 = matches!(room[0] & 0x20, 0x20);
                assert_eq!(flags, [line.valid(), line.end(), line.int(), act1, act2]);
                assert_eq!(line.length(), Bytes(length));
                assert_eq!(line.address(), 0xFFFF_FFFC);
                assert_eq!((room[0] & 0xC8, room[1]), (0, 0));
            }
        }
    }

    #[test]
    fn a_line_that_cannot_be_written_leaves_its_room() {
        let flags = [true; 5];
        for (size, length, address) in [(8, 0, 0), (8, 65_537, 0), (8, 1, 2), (7, 1, 0), (9, 1, 0)]
        {
            let mut room = vec![0xEE; size];
            assert_eq!(write_line(&mut room, flags, length, address), 17);
            assert_eq!(room, vec![0xEE; size]);
        }
    }
}
