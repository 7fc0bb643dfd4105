//! The register block: its bytes, which bits a guest can store, and the places of an access.
//!
//! The block is kept as the 256 bytes a guest sees. Bytes that follow the rest of the record
//! (Present State, parts of the status, the slot's line) are computed when read and stay at
//! their power-on value here.

pub const BLOCK_SIZE: u8 = 0x04;
pub const BLOCK_COUNT: u8 = 0x06;
pub const TRANSFER_MODE: u8 = 0x0C;
pub const COMMAND: u8 = 0x0E;
pub const COMMAND_HIGH: u8 = 0x0F;
pub const RESPONSE: u8 = 0x10;
pub const PRESENT_STATE: u8 = 0x24;
pub const HOST_CONTROL: u8 = 0x28;
pub const POWER_CONTROL: u8 = 0x29;
pub const CLOCK_CONTROL: u8 = 0x2C;
pub const SOFTWARE_RESET: u8 = 0x2F;
pub const STATUS: u8 = 0x30;
pub const STATUS_ENABLE: u8 = 0x34;
pub const SIGNAL_ENABLE: u8 = 0x38;
pub const CAPABILITIES: u8 = 0x40;
pub const FORCE_EVENT: u8 = 0x52;
pub const ADMA_ERROR: u8 = 0x54;
pub const ADMA_ADDRESS: u8 = 0x58;
pub const SLOT_LINE: u8 = 0xFC;
pub const VERSION: u8 = 0xFE;

/// SD Bus Power, bit 0 of Power Control.
pub const BUS_POWER: u8 = 0x01;
/// SD Clock Enable, bit 2 of Clock Control.
pub const CLOCK_ENABLE: u8 = 0x04;

/// The whole register block as kept.
#[derive(Clone, Debug, PartialEq, Eq)]
pub struct Registers {
    bytes: [u8; 256],
}

impl Registers {
    /// The power-on value of the whole block: the start and the full reset both name this.
    pub const POWER_ON: Registers = Registers {
        bytes: power_on_bytes(),
    };

    pub fn byte(&self, offset: u8) -> u8 {
        self.bytes[usize::from(offset)]
    }

    pub fn half(&self, offset: u8) -> u16 {
        u16::from_le_bytes([self.byte(offset), self.byte(offset.wrapping_add(1))])
    }

    pub fn word(&self, offset: u8) -> u32 {
        let high = self.half(offset.wrapping_add(2));
        u32::from(self.half(offset)) | u32::from(high) << 16
    }

    pub fn set_byte(&mut self, offset: u8, byte: u8) {
        self.bytes[usize::from(offset)] = byte;
    }

    pub fn set_half(&mut self, offset: u8, half: u16) {
        let [low, high] = half.to_le_bytes();
        self.set_byte(offset, low);
        self.set_byte(offset.wrapping_add(1), high);
    }

    pub fn set_word(&mut self, offset: u8, word: u32) {
        for (index, byte) in (0u8..).zip(word.to_le_bytes()) {
            self.set_byte(offset.wrapping_add(index), byte);
        }
    }

    /// A guest's byte into a plainly stored register: only the bits in the "Stored" list take
    /// it, so reserved, read-only and uncarried places ignore the write by themselves.
    pub fn store(&mut self, offset: u8, byte: u8) {
        let stored = stored_bits(offset);
        let kept = self.byte(offset) & !stored;
        self.set_byte(offset, kept | byte & stored);
    }

    pub fn bus_power(&self) -> bool {
        self.byte(POWER_CONTROL) & BUS_POWER != 0
    }

    pub fn clock_enabled(&self) -> bool {
        self.byte(CLOCK_CONTROL) & CLOCK_ENABLE != 0
    }
}

/// All zeros but the two registers that state what the controller is.
const fn power_on_bytes() -> [u8; 256] {
    let mut bytes = [0; 256];
    let capabilities = 0x0108_32B2_u32.to_le_bytes();
    let mut index = 0;
    while index < capabilities.len() {
        bytes[CAPABILITIES as usize + index] = capabilities[index];
        index += 1;
    }
    bytes[VERSION as usize] = 0x01;
    bytes
}

/// The bits of a byte that a guest's write stores as they are. Power and clock are not here:
/// what they keep also depends on the card.
fn stored_bits(offset: u8) -> u8 {
    match offset {
        // SDMA address, block size and count, argument; bit 15 of the block size is reserved.
        0x00..=0x04 | 0x06..=0x0B => 0xFF,
        0x05 => 0x7F,
        // Transfer Mode bits 0, 1, 2, 4, 5.
        TRANSFER_MODE => 0x37,
        // Command bits 13-3 and 1-0.
        COMMAND => 0xFB,
        COMMAND_HIGH => 0x3F,
        // Host control, wakeup, the high half of clock control, timeout control.
        HOST_CONTROL => 0x1F,
        0x2B => 0x07,
        0x2D => 0xFF,
        0x2E => 0x0F,
        // Status and signal enables: nine normal bits, ten error bits.
        0x34 | 0x36 | 0x38 | 0x3A => 0xFF,
        0x35 | 0x39 => 0x01,
        0x37 | 0x3B => 0x03,
        // A line's address is a multiple of four.
        ADMA_ADDRESS => 0xFC,
        0x59..=0x5F => 0xFF,
        _ => 0x00,
    }
}

/// A place in the register block: what an offset and a width name, if they name anything.
#[derive(Clone, Copy, Debug, PartialEq, Eq)]
pub enum Place {
    Byte(u8),
    Half(u8),
    Word(u8),
}

impl Place {
    /// The place of an access, or nothing for a width that is not 1, 2 or 4, an offset that is
    /// not its multiple, or an end past the block. An offset below 256 that is a multiple of
    /// the width cannot reach past 256, so its fitting a byte is the whole last test.
    pub fn decode(offset: u32, width: u32) -> Option<Place> {
        let first = u8::try_from(offset).ok()?;
        match width {
            1 => Some(Place::Byte(first)),
            2 if first % 2 == 0 => Some(Place::Half(first)),
            4 if first % 4 == 0 => Some(Place::Word(first)),
            _ => None,
        }
    }

    fn first(self) -> u8 {
        match self {
            Place::Byte(first) | Place::Half(first) | Place::Word(first) => first,
        }
    }

    fn width(self) -> u8 {
        match self {
            Place::Byte(_) => 1,
            Place::Half(_) => 2,
            Place::Word(_) => 4,
        }
    }

    /// Whether a value fits the width.
    pub fn fits(self, value: u32) -> bool {
        match self {
            Place::Byte(_) => value <= 0xFF,
            Place::Half(_) => value <= 0xFFFF,
            Place::Word(_) => true,
        }
    }

    /// The offsets of the access, rising. Counting on from an aligned start never wraps.
    pub fn offsets(self) -> impl Iterator<Item = u8> {
        (0..self.width()).map(move |index| self.first().wrapping_add(index))
    }

    /// The offsets of the access with the byte of `value` that each of them gets.
    pub fn bytes_of(self, value: u32) -> impl Iterator<Item = (u8, u8)> {
        self.offsets().zip(value.to_le_bytes())
    }

    /// Whether a write here issues a command.
    pub fn issues_command(self) -> bool {
        self.offsets().any(|offset| offset == COMMAND_HIGH)
    }

    /// Whether the access lies wholly inside block size and count, or inside Transfer Mode:
    /// the registers that a use of the DAT side protects.
    pub fn wholly_guarded(self) -> bool {
        let all_in = |first: u8, last: u8| self.offsets().all(|at| (first..=last).contains(&at));
        all_in(0x04, 0x07) || all_in(0x0C, 0x0D)
    }

    /// The byte of `value` that lands on one offset, if the access reaches it.
    pub fn byte_for(self, wanted: u8, value: u32) -> Option<u8> {
        self.bytes_of(value)
            .find_map(|(offset, byte)| (offset == wanted).then_some(byte))
    }
}

#[cfg(test)]
mod tests {
    use super::*;

    #[test]
    fn places_are_aligned_and_end_inside_the_block() {
        for offset in 0..600 {
            for width in 0..10 {
                let named = matches!(width, 1 | 2 | 4) && offset % width == 0;
                let named = named && offset + width <= 256;
                assert_eq!(Place::decode(offset, width).is_some(), named);
            }
        }
        assert_eq!(Place::decode(u32::MAX, 1), None);
        assert_eq!(Place::decode(0, u32::MAX), None);
    }

    #[test]
    fn only_accesses_wholly_inside_are_guarded() {
        assert!(Place::Word(0x04).wholly_guarded());
        assert!(Place::Byte(0x07).wholly_guarded());
        assert!(Place::Half(0x0C).wholly_guarded());
        assert!(Place::Byte(0x0D).wholly_guarded());
        assert!(!Place::Word(0x0C).wholly_guarded());
        assert!(!Place::Byte(0x0E).wholly_guarded());
        assert!(!Place::Word(0x08).wholly_guarded());
    }
}
