//! Steps out of the way: gentle ones that leave a transfer going, and rough
//! ones that may end it.

use super::acts::cut;
use super::ride::{Ride, CARD_IN};
use runtext::kinds;

const EVENTS: [u8; 6] = [
    kinds::IN,
    kinds::GIVEN,
    kinds::TAKEN,
    kinds::BUSY_OVER,
    kinds::TURN,
    kinds::TURN,
];

type Act = fn(&mut Ride);

const GENTLE: [(u32, Act); 11] = [
    (8, Ride::look),
    (4, Ride::acknowledge),
    (2, Ride::enables),
    (2, Ride::level),
    (1, Ride::force),
    (3, Ride::event),
    (3, Ride::protected),
    (2, Ride::bad_access),
    (2, Ride::storage),
    (2, Ride::side_command),
    (1, Ride::stray_response),
];

const ROUGH: [(u32, Act); 7] = [
    (3, Ride::data_error),
    (3, Ride::abort),
    (3, Ride::any_reset),
    (2, Ride::card_moves),
    (1, Ride::power_off),
    (1, Ride::elsewhere),
    (2, Ride::wild_access),
];

impl Ride {
    pub fn noise(&mut self) {
        let act = if self.chance.one_in(9) {
            self.chance.weighted(&ROUGH)
        } else {
            self.chance.weighted(&GENTLE)
        };
        act(self);
    }

    // Any event, in turn or not.
    fn event(&mut self) {
        let kind = self.chance.pick(&EVENTS);
        self.take(kinds::plain(kind));
    }

    // Registers held while the DAT side is in use: exactly inside, and across.
    fn protected(&mut self) {
        let (offset, width) = self.chance.pick(&[
            (0x004, 4),
            (0x004, 2),
            (0x006, 2),
            (0x005, 1),
            (0x007, 1),
            (0x00C, 2),
            (0x00C, 1),
            (0x00D, 1),
        ]);
        let value = self.chance.word();
        self.write(offset, width, cut(value, width));
    }

    // Accesses that name no place, or whose value is too big.
    fn bad_access(&mut self) {
        let (offset, width) = self.chance.pick(&[
            (0x0FF, 2),
            (0x0FE, 4),
            (0x100, 1),
            (0x0FD, 2),
            (0x025, 4),
            (0x031, 2),
            (0x024, 3),
            (0x024, 0),
            (0x030, 8),
            (0xFFFC, 4),
            (0x02F, 1),
            (0x02E, 2),
        ]);
        let value = self.chance.pick(&[0, 0x100, 0x0001_0000, u32::MAX]);
        if self.chance.bit() {
            self.take(kinds::read(offset, width));
        } else {
            self.write(offset, width, value);
        }
    }

    // Registers that only keep what is written, or not even that.
    fn storage(&mut self) {
        let (offset, width) = self.chance.pick(&[
            (0x000, 4),
            (0x008, 4),
            (0x00E, 1),
            (0x028, 1),
            (0x02A, 2),
            (0x02B, 1),
            (0x02E, 1),
            (0x05C, 4),
            (0x054, 4),
            (0x020, 4),
            (0x024, 4),
            (0x040, 4),
            (0x0FC, 4),
            (0x010, 4),
        ]);
        let value = self.chance.word();
        self.write(offset, width, cut(value, width));
        self.take(kinds::read(offset & !3, 4));
    }

    // A command beside whatever goes on: refused, or allowed without DAT.
    fn side_command(&mut self) {
        if self.chance.bit() {
            self.blind_command();
            return;
        }
        let manner = self.manner();
        let response = self.chance.below(3);
        self.issue(0, manner | response);
        if !self.chance.one_in(3) {
            self.respond();
        }
    }

    fn stray_response(&mut self) {
        self.respond();
    }

    fn any_reset(&mut self) {
        let bits = self.chance.below(8);
        self.reset(bits);
    }

    // Out and, sooner or later, in again.
    fn card_moves(&mut self) {
        let kind = if self.state(CARD_IN) {
            kinds::OUT
        } else {
            kinds::IN
        };
        self.take(kinds::plain(kind));
        if kind == kinds::OUT {
            self.after_out();
        }
    }

    fn after_out(&mut self) {
        for _ in 0..self.chance.below(4) {
            match self.chance.below(4) {
                0 => self.level(),
                1 => self.event(),
                2 => self.put(0x029, 1, 0x0F),
                _ => self.look(),
            }
        }
    }

    fn power_off(&mut self) {
        if self.chance.bit() {
            self.put(0x029, 1, 0x0E);
        } else {
            self.put(0x02C, 2, 1);
        }
    }

    // The engine's own place may be written at any time.
    fn elsewhere(&mut self) {
        let place = self.chance.word() & 0x3FF;
        self.put(0x058, 4, place);
    }

    /// A write anywhere of anything.
    pub fn wild_access(&mut self) {
        let width = self.chance.pick(&[1, 2, 4, 4]);
        let offset = self.chance.below(256) as u16 & !(width as u16 - 1);
        let value = self.chance.word();
        if self.chance.one_in(3) {
            self.take(kinds::read(offset, width));
        } else {
            self.write(offset, width, cut(value, width));
        }
    }
}
