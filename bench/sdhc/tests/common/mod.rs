//! A slot in the midst of a transfer, as several tests want it.
#![allow(dead_code)]

use sdhc::{write_line, Line, Response, Slot};

pub const MEMORY: usize = 64;

/// A Tran line.
pub fn tran(length: u32, address: u32, end: bool) -> Line {
    Line {
        valid: true,
        end,
        int: false,
        act1: false,
        act2: true,
        length,
        address,
    }
}

/// Two lines, 12 bytes at 020h and 4 bytes at 030h, over counting bytes.
pub fn memory() -> [u8; MEMORY] {
    let mut memory = [0; MEMORY];
    for (place, byte) in memory.iter_mut().enumerate() {
        *byte = place as u8;
    }
    assert!(write_line(&mut memory[0..8], tran(12, 0x020, false)).done());
    assert!(write_line(&mut memory[8..16], tran(4, 0x030, true)).done());
    memory
}

/// A slot that has a card, power and clock, and may signal Transfer Complete.
pub fn ready() -> Slot {
    let mut slot = Slot::power_on();
    assert!(slot.card_in().done());
    for (offset, bytes) in [
        (0x02C, &[0x05, 0x00][..]),
        (0x029, &[0x0F]),
        (0x028, &[0x10]),
        (0x034, &[0xFF, 0x01, 0xFF, 0x03]),
        (0x038, &[0x02, 0x00, 0x00, 0x00]),
    ] {
        assert!(slot.mmio_write(offset, bytes).done());
    }
    slot
}

/// A write of two blocks of eight bytes along the table at 0, its response in.
pub fn writing() -> Slot {
    let mut slot = ready();
    assert!(slot
        .mmio_write(0x004, &0x0002_0008_u32.to_le_bytes())
        .done());
    assert!(slot.mmio_write(0x058, &[0; 4]).done());
    assert!(slot
        .mmio_write(0x00C, &0x193A_0023_u32.to_le_bytes())
        .done());
    assert!(slot.respond(Response::Good, [0x900, 0, 0, 0]).done());
    slot
}
