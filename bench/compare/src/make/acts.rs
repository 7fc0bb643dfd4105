//! What a driver does beside commands: power, enables, acknowledgements, resets
//! and looks at the registers.

use super::ride::{Ride, CARD_IN};
use runtext::kinds;

const READABLE: [(u16, u8); 24] = [
    (0x024, 4),
    (0x024, 4),
    (0x030, 4),
    (0x030, 4),
    (0x030, 2),
    (0x032, 2),
    (0x031, 1),
    (0x033, 1),
    (0x004, 4),
    (0x006, 2),
    (0x006, 1),
    (0x00C, 4),
    (0x00E, 2),
    (0x010, 4),
    (0x01C, 4),
    (0x01F, 1),
    (0x028, 4),
    (0x02C, 4),
    (0x034, 4),
    (0x038, 4),
    (0x054, 1),
    (0x058, 4),
    (0x058, 4),
    (0x0FC, 4),
];

impl Ride {
    /// Card, power, clock and enables, mostly; what is left out now and then
    /// lets later commands be refused.
    pub fn get_ready(&mut self) {
        if !self.state(CARD_IN) && !self.chance.one_in(8) {
            self.take(kinds::plain(kinds::IN));
        }
        if !self.powered() && !self.chance.one_in(12) {
            let power = self.chance.pick(&[0x0F, 0x0F, 0x0F, 0x0F, 0x0D, 0xFF]);
            self.put(0x029, 1, power);
            let divider = self.chance.below(256) << 8;
            let clock = self.chance.pick(&[5, 5, 5, 7, 4, 1]);
            self.put(0x02C, 2, divider | clock);
        }
        if self.register(0x034) & 0x03FF_01FF != 0x03FF_01FF && !self.chance.one_in(3) {
            self.put(0x034, 4, u32::MAX);
        }
        if self.chance.one_in(3) {
            self.enables();
        }
    }

    /// Some enables and signal enables, by word or by byte.
    pub fn enables(&mut self) {
        let usual = self.chance.pick(&[0x03FF_01FF, 0x03FF_01FF, 0x02FF_008B]);
        let value = if self.chance.one_in(3) {
            self.chance.word()
        } else {
            usual
        };
        let offset = self.chance.pick(&[0x034, 0x038, 0x038]);
        self.put(offset, 4, value);
    }

    /// A write as one access, or as several smaller ones from below.
    pub fn put(&mut self, offset: u16, width: u8, value: u32) {
        if width == 1 || !self.chance.one_in(4) {
            self.write(offset, width, value);
            return;
        }
        let half = width / 2;
        let bits = 8 * half as u32;
        self.put(offset, half, value & ((1 << bits) - 1));
        self.put(offset + half as u16, half, value >> bits);
    }

    /// Clears one standing bit, several, or more than stand; by byte or word.
    pub fn acknowledge(&mut self) {
        let standing = self.register(0x030);
        let bit = 1 << self.chance.below(32);
        let some = self.chance.word();
        let bits = self
            .chance
            .pick(&[standing, standing & some, bit, bit, u32::MAX, standing & 3]);
        let (offset, width) = self.chance.pick(&[
            (0x030, 4),
            (0x030, 4),
            (0x030, 2),
            (0x032, 2),
            (0x030, 1),
            (0x031, 1),
            (0x032, 1),
            (0x033, 1),
        ]);
        self.write(offset, width, cut(bits >> (8 * (offset & 3)), width));
    }

    /// A reset of the given bits, alone or as the last byte of a wider access.
    pub fn reset(&mut self, bits: u32) {
        let noise = if self.chance.one_in(4) {
            self.chance.below(32) << 3
        } else {
            0
        };
        let byte = bits | noise;
        let below = self.chance.word();
        match self.chance.below(4) {
            0 => self.write(0x02E, 2, byte << 8 | below & 0xFF),
            1 => self.write(0x02C, 4, byte << 24 | below & 0x00FF_FFFF),
            _ => self.write(0x02F, 1, byte),
        };
    }

    /// Errors forced at 052h.
    pub fn force(&mut self) {
        let bits = self.chance.word();
        let (offset, width) =
            self.chance
                .pick(&[(0x052, 2), (0x052, 2), (0x050, 4), (0x052, 1), (0x053, 1)]);
        self.write(offset, width, cut(bits, width));
    }

    /// One read of a register that tells something.
    pub fn look(&mut self) {
        let (offset, width) = self.chance.pick(&READABLE);
        self.take(kinds::read(offset, width));
    }

    pub fn level(&mut self) {
        let level = self.chance.below(2) as u8;
        self.take(kinds::detailed(kinds::LEVEL, level));
    }
}

/// The part of a value that fits a width of 1, 2 or 4.
pub fn cut(value: u32, width: u8) -> u32 {
    match width {
        1 => value & 0xFF,
        2 => value & 0xFFFF,
        _ => value,
    }
}
