//! Transfers: set up by a plan, issued, moved on turn by turn and block by block.

use super::commands::{ABORT, DATA};
use super::plan::Plan;
use super::ride::{Ride, DAT_INHIBIT};
use runtext::kinds;

const DMA: u32 = 0x01;
const COUNT_ENABLE: u32 = 0x02;
const AUTO_CMD12: u32 = 0x04;
const READ: u32 = 0x10;
const MULTI: u32 = 0x20;
const ADMA2: u32 = 0x10;

/// So many refusals in a row, and nothing will move any more.
const PATIENCE: u32 = 4;
/// So many steps, and a table without end has been seen enough.
const MOST_STEPS: u32 = 120;

/// The registers of one transfer.
struct Settings {
    size: u32,
    count: u32,
    host: u32,
    mode: u32,
    bits: u32,
}

impl Ride {
    /// One whole transfer, as far as it comes.
    pub fn transfer(&mut self, plan: &Plan) {
        self.get_ready();
        let mut settings = self.settings(plan);
        if self.chance.one_in(10) {
            self.spoil(&mut settings);
        }
        self.set_up(&settings, plan.start);
        if self.issue(settings.mode, settings.bits).answer == 0 {
            self.answered();
        }
        self.move_on(plan.read);
        self.recover();
    }

    fn settings(&mut self, plan: &Plan) -> Settings {
        let way = if plan.read { READ } else { 0 };
        let multi = if plan.multi {
            MULTI | COUNT_ENABLE
        } else {
            self.chance.maybe(COUNT_ENABLE)
        };
        let count = if plan.multi {
            plan.blocks
        } else {
            self.chance.below(4)
        };
        Settings {
            size: plan.size | self.chance.below(16) << 12,
            count,
            host: ADMA2 | self.chance.word() & 0xE7,
            mode: DMA | way | multi | self.chance.word() & 0xFFC8,
            bits: self.manner() | DATA | 2,
        }
    }

    /// One of the settings that are not carried.
    fn spoil(&mut self, settings: &mut Settings) {
        match self.chance.below(10) {
            0 => settings.size &= !0xFFF,
            1 => {
                let size = self.chance.pick(&[513, 513, 514, 1023, 1024, 4095]);
                settings.size = settings.size & !0xFFF | size;
            }
            2 => settings.count = 0,
            3 => settings.mode &= !COUNT_ENABLE,
            4 => settings.mode &= !DMA,
            5 => settings.mode |= AUTO_CMD12,
            6 => settings.host = settings.host & !0x18 | self.chance.pick(&[0, 0x08, 0x18]),
            7 => settings.bits = settings.bits & !3 | self.chance.pick(&[0, 1, 3]),
            8 => settings.bits |= self.chance.pick(&[0x40, 0x80]),
            _ => settings.bits |= ABORT,
        }
    }

    fn set_up(&mut self, settings: &Settings, start: u32) {
        self.put(0x028, 1, settings.host);
        self.put(0x004, 4, settings.count << 16 | settings.size);
        if self.chance.bit() {
            let argument = self.chance.word();
            self.put(0x008, 4, argument);
        }
        let low = self.chance.below(4);
        self.put(0x058, 4, start | low);
    }

    /// Turns and blocks until nothing moves: a refusal asks for the other.
    fn move_on(&mut self, read: bool) {
        let block = if read { kinds::GIVEN } else { kinds::TAKEN };
        let (mut block_next, mut refused) = (self.chance.bit(), 0);
        for _ in 0..MOST_STEPS {
            if !self.state(DAT_INHIBIT) || self.full() || refused > PATIENCE {
                return;
            }
            if self.chance.one_in(6) {
                self.noise();
            }
            let kind = if block_next { block } else { kinds::TURN };
            let done = self.take(kinds::plain(kind)).answer == 0;
            refused = if done { 0 } else { refused + 1 };
            block_next = match done {
                true => self.chance.one_in(4),
                false => !block_next,
            };
        }
    }

    /// After a transfer: looks, acknowledgements, and resets of what is stuck.
    fn recover(&mut self) {
        for _ in 0..self.chance.below(4) {
            self.look();
        }
        if !self.chance.one_in(3) {
            self.acknowledge();
        }
        if self.state(3) && !self.chance.one_in(6) {
            let bits = self.chance.pick(&[6, 6, 6, 4, 2, 4, 2, 1, 3, 5, 7]);
            self.reset(bits);
            self.look();
        }
    }
}
