//! Commands: how they are issued and how the card answers.

use super::ride::{Ride, CMD_INHIBIT, DAT_INHIBIT};
use reference::Seen;
use runtext::kinds;

pub const DATA: u32 = 0x20;
pub const ABORT: u32 = 0xC0;
pub const WITH_BUSY: u32 = 3;

impl Ride {
    /// Issues a command by one of the ways there are; `bits` is all of 00Eh.
    pub fn issue(&mut self, mode: u32, bits: u32) -> Seen {
        match self.chance.below(4) {
            0 | 1 => self.write(0x00C, 4, bits << 16 | mode),
            2 => {
                self.write(0x00C, 2, mode);
                self.write(0x00E, 2, bits)
            }
            _ => {
                self.write(0x00C, 1, mode & 0xFF);
                self.write(0x00E, 1, bits & 0xFF);
                self.write(0x00F, 1, bits >> 8)
            }
        }
    }

    /// An index and both checks, for any command.
    pub fn manner(&mut self) -> u32 {
        let checks = self.chance.pick(&[0x18, 0x18, 0x08, 0x10, 0]);
        let ignored = if self.chance.one_in(8) { 0xC004 } else { 0 };
        self.chance.below(64) << 8 | checks | ignored
    }

    /// A command without data, up to its response.
    pub fn short_command(&mut self) {
        self.get_ready();
        let kind = self.chance.pick(&[0, 0, 0, 0, 0, ABORT, 0x40, 0x80]);
        let response = self.chance.below(3);
        let manner = self.manner();
        let mode = self.chance.word() & 0xFFFF;
        self.issue(mode, manner | kind | response);
        self.answered();
    }

    /// A command with a busy, and what may come before its response and before
    /// its end.
    pub fn busy_command(&mut self) {
        self.get_ready();
        let kind = self.chance.pick(&[0, 0, 0, ABORT]);
        let manner = self.manner();
        self.issue(0, manner | kind | WITH_BUSY);
        self.during_busy();
        self.answered();
        self.during_busy();
        if self.state(DAT_INHIBIT) {
            self.take(kinds::plain(kinds::BUSY_OVER));
            self.look();
        }
    }

    fn during_busy(&mut self) {
        for _ in 0..self.chance.below(3) {
            match self.chance.below(8) {
                0 => self.data_error(),
                1 => self.reset(4),
                2 => self.noise(),
                3 => self.look(),
                choice => {
                    let kind = if choice < 6 {
                        kinds::BUSY_OVER
                    } else {
                        kinds::TURN
                    };
                    self.take(kinds::plain(kind));
                }
            }
        }
    }

    /// A command issued whatever stands in its way, with any setting.
    pub fn blind_command(&mut self) {
        let manner = self.manner();
        let kind = self.chance.pick(&[0, 0, 0, 0, ABORT, 0x40, 0x80]);
        let data = self.chance.maybe(DATA);
        let response = self.chance.below(4);
        let mode = self.chance.word() & 0xFFFF;
        self.issue(mode, manner | kind | data | response);
    }

    /// Waits of chance before the response, then mostly a good one.
    pub fn answered(&mut self) {
        while self.state(CMD_INHIBIT) && !self.full() {
            if self.chance.one_in(5) {
                self.noise();
                continue;
            }
            if self.respond().answer == 0 || self.chance.one_in(4) {
                break;
            }
        }
    }

    /// One response, be it awaited or not.
    pub fn respond(&mut self) -> Seen {
        let detail = self
            .chance
            .weighted(&[(40, 0), (1, 1), (1, 2), (1, 3), (1, 4), (1, 5)]);
        let detail = match detail {
            5 => self.chance.between(5, 255) as u8,
            detail => detail,
        };
        let words = [(); 4].map(|()| self.chance.word());
        self.take(kinds::response(detail, words))
    }

    /// A data error of any number, mostly one there is.
    pub fn data_error(&mut self) {
        let detail = self
            .chance
            .weighted(&[(4, 0), (4, 1), (4, 2), (1, 3), (1, 255)]);
        self.take(kinds::detailed(kinds::DATA_ERROR, detail));
    }

    /// An Abort, with or without a busy of its own.
    pub fn abort(&mut self) {
        let manner = self.manner();
        let response = self.chance.pick(&[2, WITH_BUSY, WITH_BUSY, 0]);
        self.issue(0, manner | ABORT | response);
        self.answered();
    }
}
