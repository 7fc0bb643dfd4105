//! Register accesses as a monitor passes them on: offsets of 64 bits, data of any length.

use sdhc::{Answer, Number, Slot};

const NO_PLACE: Answer = Answer {
    number: Number::NoPlace,
    value: 0,
};

const DONE: Answer = Answer {
    number: Number::Done,
    value: 0,
};

/// A read and a write there are refused with 1; the data and the slot stay as they were.
fn names_no_place(offset: u64, width: usize) {
    let mut slot = Slot::power_on();
    assert!(slot.card_in().done());
    let before = slot.clone();
    let mut data = vec![0xA5; width];
    assert_eq!(
        slot.mmio_read(offset, &mut data),
        NO_PLACE,
        "read {offset:X}h/{width}"
    );
    assert!(
        data.iter().all(|byte| *byte == 0xA5),
        "read {offset:X}h/{width} left the data alone"
    );
    assert_eq!(
        slot.mmio_write(offset, &data),
        NO_PLACE,
        "write {offset:X}h/{width}"
    );
    assert!(slot == before, "{offset:X}h/{width} changed nothing");
}

#[test]
fn widths_other_than_1_2_and_4() {
    for width in [0, 3, 5, 6, 7, 8, 16, 256] {
        names_no_place(0x000, width);
        names_no_place(0x008, width);
    }
}

#[test]
fn offsets_that_are_no_multiple_of_the_width() {
    for (offset, width) in [(0x001, 2), (0x001, 4), (0x002, 4), (0x02D, 2), (0x0FF, 2)] {
        names_no_place(offset, width);
    }
}

#[test]
fn offsets_beyond_the_registers() {
    for width in [1, 2, 4] {
        for offset in [
            0x100,
            0x1000,
            0x7FFF_FFFC,
            0x8000_0000,
            0xFFFF_FFFC,
            0xFFFF_FFFF,
        ] {
            names_no_place(offset, width);
        }
    }
}

/// None of these may be cut to the offset in its low 32 bits.
#[test]
fn offsets_beyond_32_bits() {
    for width in [1, 2, 4] {
        for offset in [
            1 << 32,
            (1 << 32) + 0x024,
            (1 << 63) + 0x008,
            u64::MAX - 3,
            u64::MAX,
        ] {
            names_no_place(offset, width);
        }
    }
}

/// Data of a refused length must not be cut to a length that is served.
#[test]
fn a_long_write_stores_nothing() {
    let mut slot = Slot::power_on();
    assert_eq!(slot.mmio_write(0x008, &[1, 2, 3, 4, 5, 6, 7, 8]), NO_PLACE);
    let mut word = [0xFF; 4];
    assert_eq!(slot.mmio_read(0x008, &mut word), DONE);
    assert_eq!(word, [0; 4]);
}

#[test]
fn bytes_are_little_endian_in_every_width() {
    let mut slot = Slot::power_on();
    assert_eq!(slot.mmio_write(0x008, &[0x78, 0x56, 0x34, 0x12]), DONE);
    assert_eq!(slot.mmio_write(0x00A, &[0xBC, 0x9A]), DONE);
    assert_eq!(slot.mmio_write(0x009, &[0xDE]), DONE);
    let mut word = [0; 4];
    let answer = slot.mmio_read(0x008, &mut word);
    assert_eq!((answer.number, answer.value), (Number::Done, 0x9ABC_DE78));
    assert_eq!(word, [0x78, 0xDE, 0xBC, 0x9A]);
    let mut half = [0; 2];
    assert_eq!(slot.mmio_read(0x00A, &mut half).value, 0x9ABC);
    assert_eq!(half, [0xBC, 0x9A]);
    let mut byte = [0; 1];
    assert_eq!(slot.mmio_read(0x009, &mut byte).value, 0xDE);
    assert_eq!(byte, [0xDE]);
}

/// P1, P2 and the run-only values of the last four registers.
#[test]
fn what_the_paper_reads() {
    let mut slot = Slot::power_on();
    let mut word = [0; 4];
    assert_eq!(slot.mmio_read(0x024, &mut word).value, 0x01FA_0000);
    assert_eq!(slot.mmio_read(0x040, &mut word).value, 0x0108_32B2);
    assert_eq!(slot.mmio_read(0x0FC, &mut word).value, 0x0001_0000);
    assert!(slot.card_in().done());
    assert_eq!(slot.mmio_read(0x024, &mut word).value, 0x01FF_0000);
    assert_eq!(slot.card_in().number, Number::OutOfTurn);
}
