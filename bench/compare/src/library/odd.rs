//! Steps that no run file can ask for: rooms, blocks and memory of other lengths than a run
//! lends, accesses from far away, and a slot put down and taken up again.

use super::look::same_bytes;
use super::met::{Met, Odd};
use super::pair::Pair;
use super::spelling::respelled;
use crate::chance::Chance;
use reference::Step;
use runtext::kinds;
use sdhc::Slot;

/// The most memory that may be lent.
pub const MOST_MEMORY: usize = 16_777_216;
/// Some bytes more, for lengths over it.
const MORE: usize = 8;

/// A running transfer with a line in hand, in the library's record.
const RUNS: u8 = 2;
const IN_HAND: u8 = 1;

/// More memory than may be lent, for each side. It is asked for once, and its pages are never
/// touched by turns that are refused.
pub struct Lent {
    pub library: Vec<u8>,
    pub reference: Vec<u8>,
}

impl Lent {
    pub fn new() -> Lent {
        Lent {
            library: vec![0; MOST_MEMORY + MORE],
            reference: vec![0; MOST_MEMORY + MORE],
        }
    }
}

/// What an odd step works with.
pub struct Odds<'a> {
    pub pair: &'a mut Pair,
    pub chance: &'a mut Chance,
    pub lent: &'a mut Lent,
    pub met: &'a mut Met,
}

impl Odds<'_> {
    /// Now and then an odd step before a step of the file, mostly one of the same kind: it is
    /// then in turn.
    pub fn before(&mut self, step: &Step) -> Result<(), String> {
        let (kind, often) = match step.kind {
            kinds::TAKEN | kinds::GIVEN => (step.kind, 3),
            kinds::TURN => (step.kind, 6),
            _ => {
                let any = [kinds::TAKEN, kinds::GIVEN, kinds::TURN, kinds::READ];
                (self.chance.pick(&any), 16)
            }
        };
        if !self.chance.one_in(often) {
            return Ok(());
        }
        match kind {
            kinds::TAKEN => self.taken(),
            kinds::GIVEN => self.given(),
            kinds::TURN if self.chance.bit() => self.turn_within(),
            kinds::TURN => self.turn_over(),
            _ if self.chance.bit() => self.far_access(),
            _ => {
                self.restored();
                Ok(())
            }
        }
    }

    // Lengths around a block of that size.
    fn length(&mut self, size: usize) -> usize {
        let around = [
            0,
            1,
            size.saturating_sub(1),
            size,
            size + 1,
            512,
            513,
            1_024,
        ];
        self.chance.pick(&around)
    }

    fn taken(&mut self) -> Result<(), String> {
        let size = self.pair.run.block_size();
        let length = self.length(size);
        let mut rooms = [vec![0xEE; length], vec![0xEE; length]];
        let [left, right] = &mut rooms;
        let taken = self.pair.both(
            |run| Ok(Some(run.slot.taken(left))),
            |machine| machine.taken_into(right),
        );
        let told = |what| format!("a room of {length} bytes: {what}");
        let seen = taken.map_err(told)?;
        same_bytes("the bytes taken", left, right).map_err(told)?;
        self.met.count_if(seen.answer == 8, Odd::RoomTooShort);
        let longer = seen.answer == 0 && length > seen.value as usize;
        self.met.count_if(longer, Odd::RoomLonger);
        Ok(())
    }

    fn given(&mut self) -> Result<(), String> {
        let size = self.pair.run.block_size();
        let length = self.length(size);
        let block = self.chance.bytes(length);
        let given = self.pair.both(
            |run| Ok(Some(run.slot.given(&block))),
            |machine| machine.given(&block),
        );
        let seen = given.map_err(|what| format!("a block of {length} bytes: {what}"))?;
        self.met.count_if(seen.answer == 8, Odd::BlockOfOtherLength);
        self.met.count_if(seen.answer == 0, Odd::BlockBesideTheCard);
        Ok(())
    }

    // Only the first bytes of memory are lent, so a line in hand may lie outside now.
    fn turn_within(&mut self) -> Result<(), String> {
        let all = self.pair.run.memory.len();
        let length = self.chance.below(all as u32 + 1) as usize;
        let dat = self.pair.run.slot.record().dat;
        let turned = self.pair.both(
            |run| Ok(Some(run.slot.turn(&mut run.memory[..length]))),
            |machine| machine.turn_within(length),
        );
        let seen = turned.map_err(|what| format!("a turn over {length} bytes: {what}"))?;
        let in_hand = dat.tag == RUNS && dat.stage.tag == IN_HAND;
        let cut = in_hand && seen.fault == Some(3);
        self.met.count_if(cut, Odd::MemoryCutUnderALine);
        Ok(())
    }

    // Too much memory, and seldom the most that may be lent, which is looked at as a whole.
    fn turn_over(&mut self) -> Result<(), String> {
        let most = self.chance.one_in(50);
        let over = self.chance.between(1, MORE as u32) as usize;
        let length = if most {
            MOST_MEMORY
        } else {
            MOST_MEMORY + over
        };
        let (left, right) = (&mut self.lent.library, &mut self.lent.reference);
        let turned = self.pair.both(
            |run| Ok(Some(run.slot.turn(&mut left[..length]))),
            |machine| machine.turn_over(&mut right[..length]),
        );
        let told = |what| format!("a turn over {length} bytes: {what}");
        let seen = turned.map_err(told)?;
        if most {
            same_bytes("the lent memory", left, right).map_err(told)?;
            self.met.count(Odd::TurnOverTheMost);
        }
        self.met.count_if(seen.answer == 11, Odd::TurnOverTooMuch);
        Ok(())
    }

    // A place outside of the block names no place, be it one past it or far away; the reference
    // is asked for one past it.
    fn far_access(&mut self) -> Result<(), String> {
        let far = [0x100, 0x1_0000, 0x1_0000_0024, 1 << 40, u64::MAX - 3];
        let offset = self.chance.pick(&far);
        let length = self.chance.pick(&[1, 2, 4, 300, 65_536]);
        let read = self.chance.bit();
        let mut data = vec![0xEE; length];
        let accessed = self.pair.both(
            |run| {
                Ok(Some(match read {
                    true => run.slot.mmio_read(offset, &mut data),
                    false => run.slot.mmio_write(offset, &data),
                }))
            },
            |machine| machine.step(&kinds::read(0x100, 1)),
        );
        let told = |what| format!("an access of {length} bytes at {offset:X}h: {what}");
        accessed.map_err(told)?;
        same_bytes("the data", &data, &vec![0xEE; length]).map_err(told)?;
        self.met.count(Odd::FarAccess);
        Ok(())
    }

    // The slot that goes on is one made from what was kept of it, or from another record that
    // spells the same state.
    fn restored(&mut self) {
        let slot = &mut self.pair.run.slot;
        let (record, odd) = match self.chance.bit() {
            true => (*slot.record(), Odd::SlotRestored),
            false => (respelled(self.chance, slot.record()), Odd::SlotRespelled),
        };
        *slot = Slot::restored(record, *slot.buffer());
        self.met.count(odd);
    }
}
