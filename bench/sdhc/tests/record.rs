//! The record's fields are the archive's: each is met with a value of its own.

mod common;

use common::{ready, tran};
use sdhc::{
    write_line, Adma, Command, Control, Dat, Interrupts, Line, Registers, Reply, Response, Setup,
    Slot, Stage,
};

fn wrote(slot: &mut Slot, offset: u64, width: usize, value: u32) {
    assert!(slot
        .mmio_write(offset, &value.to_le_bytes()[..width])
        .done());
}

/// A slot whose stored registers all differ, and whose command has had a long response.
fn filled() -> Slot {
    let mut slot = ready();
    wrote(&mut slot, 0x000, 4, 0x0102_0304);
    wrote(&mut slot, 0x004, 4, 0x0005_0006);
    wrote(&mut slot, 0x008, 4, 0x0708_090A);
    wrote(&mut slot, 0x00C, 2, 0x0011);
    wrote(&mut slot, 0x058, 4, 0x0B0C_0D0C);
    wrote(&mut slot, 0x05C, 4, 0x0E0F_1011);
    wrote(&mut slot, 0x02B, 1, 0x07);
    wrote(&mut slot, 0x02E, 1, 0x0E);
    wrote(&mut slot, 0x00E, 2, 0x0209);
    let waits = Command {
        tag: 1,
        kind: 1,
        crc: 1,
        index: 0,
    };
    assert_eq!(slot.record().command, waits);
    assert!(slot
        .respond(
            Response::Good,
            [0x1111_1111, 0x2222_2222, 0x3333_3333, 0x0044_4444]
        )
        .done());
    slot
}

#[test]
fn the_registers() {
    let wanted = Registers {
        setup: Setup {
            system: 0x0102_0304,
            block: 0x0005_0006,
            argument: 0x0708_090A,
            order: 0x0209_0011,
        },
        reply: Reply {
            first: 0x1111_1111,
            second: 0x2222_2222,
            third: 0x3333_3333,
            fourth: 0x0044_4444,
        },
        control: Control {
            host: 0x0700_0F10,
            clock: 0x000E_0005, // bit 1 is worked out as it is read
        },
        interrupts: Interrupts {
            status: 0x0000_0001,
            enabled: 0x03FF_01FF,
            signal: 0x0000_0002,
        },
        adma: Adma {
            fault: 0,
            low: 0x0B0C_0D0C,
            high: 0x0E0F_1011,
        },
    };
    let mut slot = filled();
    assert_eq!(slot.record().registers, wanted);
    assert_eq!((slot.record().card, slot.record().level), (1, 0));
    assert!(slot.set_level(true).done());
    assert_eq!((slot.record().card, slot.record().level), (1, 1));
}

/// A write of three blocks of twelve bytes, in the midst of a first line with Int and without End.
#[test]
fn a_running_transfer() {
    let mut slot = ready();
    let mut memory = [0; 32];
    let line = Line {
        int: true,
        ..tran(20, 8, false)
    };
    assert!(write_line(&mut memory[..8], line).done());
    wrote(&mut slot, 0x004, 4, 0x0003_000C);
    wrote(&mut slot, 0x00C, 4, 0x193A_0023);
    assert!(slot.respond(Response::Good, [0; 4]).done());
    assert!(slot.turn(&mut memory).done());
    let mut wanted = Dat {
        tag: 2,
        way: 1,
        answered: 1,
        counted: 1,
        size: 12,
        left: 3,
        owed: 36,
        held: 0,
        stage: Stage {
            tag: 1,
            last: 0,
            int: 1,
            rest: 20,
            at: 8,
        },
    };
    assert_eq!(slot.record().dat, wanted);
    assert_eq!(slot.turn(&mut memory).value, 12);
    (wanted.owed, wanted.held, wanted.stage.rest, wanted.stage.at) = (24, 12, 8, 20);
    assert_eq!(slot.record().dat, wanted);
    assert_eq!(slot.taken(&mut [0; 12]).value, 12);
    (wanted.left, wanted.held) = (2, 0);
    assert_eq!(slot.record().dat, wanted);
}
