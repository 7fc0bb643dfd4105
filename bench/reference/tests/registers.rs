//! The registers: what is stored, what reads as it must, power and clock, the resets.

mod common;

use common::*;

/// Every register word after all ones were written to it, with a card in. The forced events
/// among them bring the line up before its own register is met.
#[test]
fn all_ones_leave_the_stored_bits() {
    let expected = [
        (0x00, 0xFFFF_FFFF),
        (0x04, 0xFFFF_7FFF),
        (0x08, 0xFFFF_FFFF),
        (0x28, 0x0700_0F1F),
        (0x34, 0x03FF_01FF),
        (0x38, 0x03FF_01FF),
        (0x40, 0x0108_32B2),
        (0x58, 0xFFFF_FFFC),
        (0x5C, 0xFFFF_FFFF),
        (0xFC, 0x0001_0001),
        (0x24, 0x01FF_0000),
    ];
    let mut bench = Bench::bare(vec![], vec![]);
    bench.done(card_in());
    for offset in (0..0x100).step_by(4) {
        if offset == 0x0C || offset == 0x2C {
            continue;
        }
        bench.done(write(offset, 4, u32::MAX));
        let stored = expected.iter().find(|(at, _)| *at == offset);
        let stored = stored.map_or(0, |(_, stored)| *stored);
        assert_eq!(bench.word(u32::from(offset)), stored, "{offset:03X}");
    }
}

#[test]
fn each_byte_can_be_written_alone() {
    let mut bench = Bench::bare(vec![], vec![]);
    for offset in (0x00..0x0C).chain(0x58..0x60) {
        bench.done(write(offset, 1, 0x40 + u32::from(offset % 16)));
    }
    assert_eq!(bench.word(0x00), 0x4342_4140);
    assert_eq!(bench.word(0x04), 0x4746_4544);
    assert_eq!(bench.word(0x08), 0x4B4A_4948);
    assert_eq!(bench.word(0x58), 0x4B4A_4948);
    assert_eq!(bench.word(0x5C), 0x4F4E_4D4C);
    assert_eq!(bench.done(read(0x05, 1)), 0x45);
    assert_eq!(bench.done(read(0x06, 2)), 0x4746);
}

#[test]
fn mode_and_command_keep_their_bits() {
    let mut bench = Bench::ready(vec![], vec![]);
    bench.all([write(0x0C, 2, 0xFFFF), write(0x0E, 1, 0xFF)]);
    assert_eq!(bench.word(0x0C), 0x00FB_0037);
    bench.done(write(0x0E, 2, 0xC004 | PLAIN));
    assert_eq!(bench.word(0x0C), PLAIN << 16 | 0x37);
    bench.refused(3, write(0x0C, 4, 0));
    assert_eq!(bench.word(0x0C), PLAIN << 16 | 0x37);
}

#[test]
fn a17_power_needs_a_card_and_the_voltage_now() {
    let mut bench = Bench::bare(vec![], vec![]);
    bench.done(write(0x29, 1, 0x0F));
    assert_eq!(bench.done(read(0x29, 1)), 0x0E);
    bench.done(card_in());
    assert_eq!(bench.done(read(0x29, 1)), 0x0E);
    bench.done(write(0x29, 1, 0xFF));
    assert_eq!(bench.done(read(0x29, 1)), 0x0F);
    for voltage in [0x01, 0x03, 0x05, 0x07, 0x09, 0x0B, 0x0D] {
        bench.done(write(0x29, 1, voltage));
        assert_eq!(bench.done(read(0x29, 1)), voltage & 0x0E);
    }
}

#[test]
fn a17_the_clock_needs_a_card_and_the_internal_clock() {
    let mut bench = Bench::bare(vec![], vec![]);
    bench.done(write(0x2C, 2, 0xFFFD));
    assert_eq!(bench.done(read(0x2C, 2)), 0xFF03);
    bench.done(card_in());
    assert_eq!(bench.done(read(0x2C, 2)), 0xFF03);
    for (written, kept) in [(4, 0), (2, 0), (6, 0), (1, 3), (5, 7), (0xFF, 7)] {
        bench.done(write(0x2C, 1, written));
        assert_eq!(bench.done(read(0x2C, 2)), 0xFF00 | kept);
    }
    bench.done(write(0x2D, 1, 0x12));
    assert_eq!(bench.done(read(0x2C, 2)), 0x1207);
}

#[test]
fn a18_clock_off_halts_nothing() {
    let mut bench = Bench::issued(example_memory(), vec![], 8, WRITE_ONE);
    bench.all([write(0x2C, 2, 0), write(0x29, 1, 0)]);
    bench.all([good(), turn(), turn()]);
    assert_eq!(bench.seen(taken()).raised, TRANSFER_COMPLETE);
    bench.refused(5, write(0x0E, 2, PLAIN));
}

#[test]
fn a19_wakeup_has_no_effect() {
    let mut bench = Bench::ready(vec![], vec![]);
    bench.all([write(0x2B, 1, 0xFF), card_out(), card_in(), level(1)]);
    assert_eq!(bench.word(0x28) >> 24, 7);
    assert_eq!(bench.word(0xFC), 0x0001_0000);
}

#[test]
fn a35_reset_all_is_last_of_its_access() {
    let mut bench = Bench::ready(vec![], vec![]);
    bench.done(write(0x58, 4, 0x100));
    assert_eq!(bench.seen(write(0x2C, 4, 0x01FF_FF05)).resets, 1);
    assert_eq!(bench.word(0x2C), 0);
    assert_eq!(bench.word(0x58), 0);
    assert_eq!(bench.seen(write(0x2C, 4, 0x06FF_FF05)).resets, 6);
    assert_eq!(bench.word(0x2C), 0x000F_FF07);
    assert_eq!(bench.seen(write(0x2E, 2, 0x0103)).resets, 1);
    assert_eq!(bench.word(0x2C), 0);
    assert_eq!(bench.seen(write(0x2E, 2, 0xFA0C)).resets, 2);
    assert_eq!(bench.word(0x2C), 0x000C_0000);
}

#[test]
fn a36_other_reset_bits_do_nothing() {
    let mut bench = Bench::issued(example_memory(), vec![], 8, WRITE_ONE);
    let before = bench.0.clone();
    assert_eq!(bench.seen(write(0x2F, 1, 0xF8)).resets, 0);
    assert_eq!(bench.seen(write(0x2F, 1, 0x00)).resets, 0);
    assert!(bench.0 == before);
    bench.done(write(0x2F, 1, 0x06));
    assert_eq!(bench.state(), 0x01FF_0000);
    assert_eq!(bench.word(0x28) & 0xFF00, 0x0F00);
}

#[test]
fn a37_reset_all_keeps_the_card_and_its_level() {
    let mut bench = Bench::running(example_memory(), vec![], 8, WRITE_ONE);
    bench.all([level(1), turn(), write(0x52, 2, 0x3FF)]);
    bench.all([write(0x38, 4, u32::MAX), write(0x2F, 1, 7)]);
    let mut fresh = Bench::bare(example_memory(), vec![]);
    fresh.all([card_in(), level(1)]);
    assert!(bench.0 == fresh.0);
    assert_eq!(bench.status(), 0);
    assert_eq!(
        bench.seen(write(0x34, 4, 0x03FF_01FF)).raised,
        CARD_INTERRUPT
    );
    assert_eq!(bench.status(), CARD_INTERRUPT);
}

#[test]
fn a38_cmd_reset_halts_what_waits_on_the_response() {
    for (command, state) in [(WRITE_ONE, 0x106), (READ_ONE, 0x206), (BUSY << 16, 0x006)] {
        let mut bench = Bench::issued(example_memory(), vec![], 8, command);
        assert_eq!(bench.state(), 0x01FF_0001 | state);
        bench.done(write(0x2F, 1, 2));
        assert_eq!(bench.state(), 0x01FF_0000 | state);
        assert!(!bench.0.running());
        bench.refused(7, good());
        bench.refused(10, turn());
        bench.refused(7, busy_over());
        bench.done(write(0x2F, 1, 4));
        assert_eq!(bench.state(), 0x01FF_0000);
    }
}

#[test]
fn a38_cmd_reset_leaves_what_has_its_response() {
    let mut bench = Bench::running(example_memory(), vec![], 8, WRITE_ONE);
    bench.done(write(0x0E, 2, PLAIN));
    assert_eq!(bench.status(), COMMAND_COMPLETE);
    bench.done(write(0x2F, 1, 2));
    assert_eq!(bench.status(), 0);
    assert_eq!(bench.state(), 0x01FF_0106);
    bench.all([turn(), turn()]);
    assert_eq!(bench.seen(taken()).raised, TRANSFER_COMPLETE);
}

#[test]
fn a39_dat_reset_leaves_the_waiting_command() {
    let mut bench = Bench::issued(example_memory(), vec![], 8, WRITE_ONE);
    bench.done(write(0x2F, 1, 4));
    assert_eq!(bench.state(), 0x01FF_0001);
    bench.refused(10, turn());
    let mut failing = bench.clone();
    assert_eq!(bench.seen(good()).raised, COMMAND_COMPLETE);
    assert_eq!(bench.word(0x10), 0x900);
    assert_eq!(bench.state(), 0x01FF_0000);
    failing.done(failed(2));
    assert_eq!(failing.state(), 0x01FF_0001);
    let mut busy = Bench::issued(vec![], vec![], 8, BUSY << 16);
    busy.all([write(0x2F, 1, 4), good()]);
    assert_eq!(busy.state(), 0x01FF_0000);
    busy.refused(7, busy_over());
}

#[test]
fn a40_dat_reset_leaves_the_rest() {
    let lines = [line(NOP | INT, 0, 0), line(TRAN, 8, 16)];
    let mut bench = Bench::running(table(24, &lines), vec![], 8 | 3 << 16, WRITE_MANY);
    bench.all([turn(), turn(), turn(), taken()]);
    let fault = bench.seen(turn()).fault;
    assert_eq!(fault, Some(1));
    bench.done(write(0x2F, 1, 4));
    assert_eq!(bench.state(), 0x01FF_0000);
    assert_eq!(
        bench.status(),
        ADMA_ERROR | ANY_ERROR | DMA_INTERRUPT | COMMAND_COMPLETE
    );
    assert_eq!((bench.fault(), bench.count(), bench.at()), (1, 2, 16));
}

#[test]
fn dat_reset_clears_transfer_complete_only() {
    let mut bench = Bench::running(example_memory(), vec![], 8, WRITE_ONE);
    bench.all([turn(), turn(), taken()]);
    assert_eq!(bench.status(), COMMAND_COMPLETE | TRANSFER_COMPLETE);
    bench.done(write(0x2F, 1, 4));
    assert_eq!(bench.status(), COMMAND_COMPLETE);
    bench.done(write(0x2F, 1, 2));
    assert_eq!(bench.status(), 0);
}
