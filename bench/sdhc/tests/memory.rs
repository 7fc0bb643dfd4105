//! Lent memory: 16,777,216 bytes and no more, and none at all.

mod common;

use common::{memory, writing, MEMORY};
use sdhc::{boot_check, survey, Answer, Kind, Number, Slot};

const MOST: usize = 16_777_216;

const TOO_LARGE: Answer = Answer {
    number: Number::MemoryTooLarge,
    value: 0,
};

/// The table at 0, then zeros up to a length.
fn grown(length: usize) -> Vec<u8> {
    let mut memory = memory().to_vec();
    memory.resize(length, 0);
    memory
}

/// 11 comes before 10 and before 9, and changes neither the slot nor the memory.
#[test]
fn a_byte_too_many() {
    let mut lent = grown(MOST + 1);
    let unanswered = {
        let mut slot = common::ready();
        assert!(slot
            .mmio_write(0x004, &0x0002_0008_u32.to_le_bytes())
            .done());
        assert!(slot
            .mmio_write(0x00C, &0x193A_0023_u32.to_le_bytes())
            .done());
        slot
    };
    for before in [Slot::power_on(), unanswered, writing()] {
        let mut slot = before.clone();
        assert_eq!(slot.turn(&mut lent), TOO_LARGE);
        assert!(slot == before);
    }
    assert!(lent == grown(MOST + 1));
    let report = survey(&lent, 0, 16, 0);
    assert_eq!(report.number, Number::MemoryTooLarge);
    assert_eq!(
        (report.kind, report.state, report.lines),
        (Kind::Well, 0, 0)
    );
    assert_eq!((report.bytes, report.after), (0, 0));
    let boot = boot_check(&lent, 0, 16);
    assert_eq!((boot.number, boot.yes), (Number::MemoryTooLarge, false));
    assert_eq!(
        survey(&lent, 0, 16, 4097).number,
        Number::MemoryTooLarge,
        "11 before 12"
    );
}

#[test]
fn as_much_as_is_permitted() {
    let mut lent = grown(MOST);
    assert_eq!(Slot::power_on().turn(&mut lent).number, Number::NoTransfer);
    let mut slot = writing();
    assert!(slot.turn(&mut lent).done());
    assert_eq!(slot.turn(&mut lent).value, 8);
    assert!(boot_check(&lent, 0, 16).yes);
}

/// A line that names the last bytes of the largest memory is sound, and one that names a byte more is not.
#[test]
fn the_end_of_the_largest_memory() {
    for (address, yes) in [(MOST as u32 - 4, true), (MOST as u32, false)] {
        let mut lent = grown(MOST);
        assert!(sdhc::write_line(&mut lent[8..16], common::tran(4, address, true)).done());
        assert_eq!(boot_check(&lent, 0, 16).yes, yes, "{address:X}h");
    }
}

/// With no memory the first line is not there: state 01, and the transfer halts.
#[test]
fn none_at_all() {
    let mut slot = writing();
    let answer = slot.turn(&mut []);
    assert_eq!((answer.number, answer.value), (Number::Done, 0));
    let mut byte = [0; 1];
    assert_eq!(slot.mmio_read(0x054, &mut byte).value, 1);
    assert_eq!(slot.turn(&mut [0; MEMORY]).number, Number::NoTransfer);
}

/// Memory may be lent anew for each turn; what counts is the memory of that turn.
#[test]
fn shorter_at_the_next_turn() {
    let (mut slot, mut lent) = (writing(), memory());
    assert!(slot.turn(&mut lent).done());
    let answer = slot.turn(&mut lent[..0x027]);
    assert_eq!((answer.number, answer.value), (Number::Done, 0));
    let mut byte = [0; 1];
    assert_eq!(slot.mmio_read(0x054, &mut byte).value, 3);
    assert!(slot.buffer().iter().all(|byte| *byte == 0), "nothing moved");
}
