//! What is measured plays here: memory with a table in front of its data, and a slot that a
//! driver has made ready.

use crate::side::Side;

/// The bytes of a block, and of the data that one line names.
pub const BLOCK: usize = 512;
pub const LINE_DATA: usize = 4_096;
pub const BLOCKS_PER_LINE: usize = LINE_DATA / BLOCK;

const LINE: usize = 8;
const PAGE: usize = 4_096;
const VALID: u8 = 0x01;
const END: u8 = 0x02;
const TRAN: u8 = 0x20;

/// Which way the bytes go.
#[derive(Clone, Copy, Debug, PartialEq, Eq)]
pub enum Way {
    Write,
    Read,
}

/// A block of the card, or a buffer of one block. Where bytes lie decides how fast they are
/// copied, so every contender gets the same: its blocks on a line of the cache, its memory on a
/// page, as a guest's is.
#[derive(Clone)]
#[repr(align(64))]
pub struct Block(pub [u8; BLOCK]);

/// Guest memory for a transfer of so many blocks: lines of 4 KiB, the last one shorter where
/// blocks are left over and with End, and behind them the data.
pub struct Scene {
    lent: Vec<u8>,
    /// Where the first page begins, and how many bytes count from there.
    first: usize,
    length: usize,
    pub blocks: usize,
    /// Where the data begin.
    pub data: usize,
}

impl Scene {
    fn empty(blocks: usize, data: usize, length: usize) -> Scene {
        let lent = vec![0; length + PAGE];
        let first = lent.as_ptr().align_offset(PAGE);
        Scene {
            lent,
            first,
            length,
            blocks,
            data,
        }
    }

    pub fn new(blocks: usize) -> Scene {
        let lines = blocks.div_ceil(BLOCKS_PER_LINE);
        let data = PAGE.max((lines * LINE).next_multiple_of(PAGE));
        let mut scene = Scene::empty(blocks, data, data + blocks * BLOCK);
        let memory = scene.memory();
        for line in 0..lines {
            let at = line * LINE_DATA;
            let length = LINE_DATA.min(blocks * BLOCK - at);
            let end = if line + 1 == lines { END } else { 0 };
            let bytes = table_line(TRAN | VALID | end, length, data + at);
            memory[line * LINE..][..LINE].copy_from_slice(&bytes);
        }
        for (place, byte) in memory[data..].iter_mut().enumerate() {
            *byte = pattern(place);
        }
        scene
    }

    /// A table of so many lines over the same 512 bytes of data, for surveys.
    pub fn many_lines(lines: usize) -> Scene {
        let data = lines * LINE;
        let mut scene = Scene::empty(lines, data, data + BLOCK);
        let memory = scene.memory();
        for line in 0..lines {
            let end = if line + 1 == lines { END } else { 0 };
            let bytes = table_line(TRAN | VALID | end, BLOCK, data);
            memory[line * LINE..][..LINE].copy_from_slice(&bytes);
        }
        scene
    }

    #[inline(always)]
    pub fn memory(&mut self) -> &mut [u8] {
        &mut self.lent[self.first..self.first + self.length]
    }

    /// The bytes that a transfer moves.
    pub fn moved(&mut self) -> &mut [u8] {
        let data = self.data;
        &mut self.memory()[data..]
    }

    pub fn bytes(&self) -> usize {
        self.blocks * BLOCK
    }
}

/// Bytes that tell where they lie.
pub fn pattern(place: usize) -> u8 {
    (place ^ place >> 8) as u8
}

fn table_line(attributes: u8, length: usize, address: usize) -> [u8; LINE] {
    let [low, high] = (length as u16).to_le_bytes();
    let [a, b, c, d] = (address as u32).to_le_bytes();
    [attributes, 0, low, high, a, b, c, d]
}

/// A slot with card, power, clock, ADMA2 and all its interrupts.
pub fn ready<S: Side>() -> S {
    let mut slot = S::power_on();
    let answers = [
        slot.card_in(),
        slot.write1(0x29, 0x0F),
        slot.write2(0x2C, 0x0005),
        slot.write1(0x28, 0x10),
        slot.write4(0x34, 0x03FF_01FF),
        slot.write4(0x38, 0x03FF_01FF),
        slot.write2(0x30, 0x0040),
    ];
    assert_eq!(answers, [(0, 0); 7], "the slot is made ready");
    slot
}

/// Transfer Mode and Command of a transfer of several blocks through ADMA2.
pub fn command(way: Way) -> u32 {
    match way {
        Way::Write => 0x193A_0023,
        Way::Read => 0x123A_0033,
    }
}

/// What a driver writes to start a transfer, up to the card's response and its acknowledgement.
/// The numbers of all answers, put together: 0 if each of them is.
#[inline(always)]
pub fn start<S: Side>(slot: &mut S, way: Way, blocks: usize) -> u32 {
    let mut refused = slot.write4(0x04, (blocks as u32) << 16 | BLOCK as u32).0;
    refused |= slot.write4(0x08, 0).0;
    refused |= slot.write4(0x58, 0).0;
    refused |= slot.write4(0x0C, command(way)).0;
    refused |= slot.respond().0;
    let (number, status) = slot.read4(0x30);
    refused | number | slot.write2(0x30, status as u16).0
}

/// What a driver does at the end: it sees Transfer Complete and nothing else, and acknowledges.
#[inline(always)]
pub fn finish<S: Side>(slot: &mut S) -> u32 {
    let (number, status) = slot.read4(0x30);
    let other = u32::from(status != 0x0002);
    number | other | slot.write2(0x30, 0x0002).0
}

#[cfg(test)]
mod tests {
    use super::*;
    use crate::side::{Library, Reference};

    fn starts<S: Side>() {
        for way in [Way::Write, Way::Read] {
            let mut slot = ready::<S>();
            assert_eq!(slot.read4(0x24), (0, 0x01FF_0000));
            assert_eq!(start(&mut slot, way, 64), 0);
            let active = if way == Way::Write { 0x100 } else { 0x200 };
            assert_eq!(slot.read4(0x24), (0, 0x01FF_0006 | active));
            assert_eq!(slot.read4(0x30), (0, 0), "Command Complete is acknowledged");
            assert_ne!(finish(&mut slot), 0, "nothing is complete yet");
        }
    }

    #[test]
    fn a_transfer_starts_on_both() {
        starts::<Library>();
        starts::<Reference>();
    }

    #[test]
    fn memory_begins_on_a_page() {
        for blocks in [1, 64] {
            let mut scene = Scene::new(blocks);
            assert_eq!(scene.memory().as_ptr() as usize % PAGE, 0);
            assert_eq!(scene.moved().len(), blocks * BLOCK);
        }
    }

    #[test]
    fn tables_name_all_bytes() {
        for blocks in [1, 7, 8, 9, 16, 64, 4_096] {
            let mut scene = Scene::new(blocks);
            let owed = scene.bytes() as u32;
            let found = reference::survey(scene.memory(), 0, owed, 4_096);
            assert_eq!((found.answer, found.kind, found.bytes), (0, 0, owed));
        }
        let mut scene = Scene::many_lines(4_096);
        let owed = scene.bytes() as u32;
        let found = reference::survey(scene.memory(), 0, owed, 4_096);
        assert_eq!((found.kind, found.lines), (0, 4_096));
    }
}
