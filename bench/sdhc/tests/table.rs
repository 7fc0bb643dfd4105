//! Surveys, the boot check, lines written and read back.

use sdhc::{boot_check, read_line, survey, write_line, Answer, Kind, Line, Number, Survey};

/// The memory of the worked example.
const EXAMPLE: [u8; 24] = [
    0x23, 0, 8, 0, 0x10, 0, 0, 0, 0, 0, 0, 0, 0, 0, 0, 0, 0x11, 0x22, 0x33, 0x44, 0x55, 0x66, 0x77,
    0x88,
];

const NOTHING: Line = Line {
    valid: false,
    end: false,
    int: false,
    act1: false,
    act2: false,
    length: 65536,
    address: 0,
};

fn told(kind: Kind, state: u8, lines: u32, bytes: u32, after: u32) -> Survey {
    Survey {
        number: Number::Done,
        kind,
        state,
        lines,
        bytes,
        after,
    }
}

/// The example with one byte of its line changed.
fn changed(place: usize, byte: u8) -> [u8; 24] {
    let mut memory = EXAMPLE;
    memory[place] = byte;
    memory
}

/// P4 to P9.
#[test]
fn what_the_paper_surveys() {
    assert_eq!(survey(&EXAMPLE, 0, 8, 0), told(Kind::Well, 0x00, 1, 8, 8));
    assert_eq!(survey(&EXAMPLE, 0, 16, 0), told(Kind::Error, 0x04, 1, 8, 8));
    assert_eq!(survey(&EXAMPLE, 0, 4, 0), told(Kind::Error, 0x07, 1, 0, 8));
    assert_eq!(
        survey(&changed(4, 0x14), 0, 8, 0),
        told(Kind::Error, 0x03, 1, 0, 8)
    );
    assert_eq!(
        survey(&changed(0, 0x22), 0, 8, 0),
        told(Kind::Error, 0x01, 1, 0, 0)
    );
    assert_eq!(survey(&[], 0, 8, 0), told(Kind::Error, 0x01, 1, 0, 0));
    assert_eq!(
        survey(&EXAMPLE, 3, 8, 0),
        told(Kind::Well, 0x00, 1, 8, 8),
        "low two bits of the start"
    );
}

/// P10, and the limits around it.
#[test]
fn a_line_that_links_to_itself() {
    let mut memory = [0; 8];
    memory[0] = 0x31;
    assert_eq!(survey(&memory, 0, 8, 0), told(Kind::Limit, 0, 64, 0, 0));
    assert_eq!(survey(&memory, 0, 8, 1), told(Kind::Limit, 0, 1, 0, 0));
    assert_eq!(
        survey(&memory, 0, 8, 4096),
        told(Kind::Limit, 0, 4096, 0, 0)
    );
    let refused = Survey {
        number: Number::LimitTooHigh,
        ..told(Kind::Well, 0, 0, 0, 0)
    };
    assert_eq!(survey(&memory, 0, 8, 4097), refused);
    assert_eq!(survey(&memory, 0, 8, u32::MAX), refused);
}

#[test]
fn the_boot_check_says_yes_exactly_on_a_sound_table() {
    for (owed, yes) in [(8, true), (16, false), (4, false), (0, false)] {
        let boot = boot_check(&EXAMPLE, 0, owed);
        assert_eq!(
            (boot.number, boot.yes),
            (Number::Done, yes),
            "{owed} bytes owed"
        );
    }
    assert!(!boot_check(&[], 0, 8).yes);
}

/// Every set of flags with the lengths and addresses at their ends.
#[test]
fn lines_read_back_as_they_were_written() {
    for flags in 0..32u8 {
        for length in [1, 2, 255, 256, 65535, 65536] {
            for address in [0, 4, 0x0102_0304, 0x8000_0000, 0xFFFF_FFFC] {
                let line = Line {
                    valid: flags & 1 != 0,
                    end: flags & 2 != 0,
                    int: flags & 4 != 0,
                    act1: flags & 8 != 0,
                    act2: flags & 16 != 0,
                    length,
                    address,
                };
                let mut room = [0xFF; 8];
                assert_eq!(write_line(&mut room, line).number, Number::Done);
                assert_eq!(read_line(&room), line);
                assert_eq!((room[0] & 0xC8, room[1]), (0, 0), "spare bits");
            }
        }
    }
}

const SOUND: Line = Line {
    valid: true,
    act2: true,
    length: 8,
    address: 16,
    ..NOTHING
};

const REFUSED: Answer = Answer {
    number: Number::LineRefused,
    value: 0,
};

#[test]
fn a_refused_line_leaves_the_room_alone() {
    let lengths = [0, 65537, u32::MAX].map(|length| Line { length, ..SOUND });
    let addresses = [17, 18, 19].map(|address| Line { address, ..SOUND });
    for line in lengths.into_iter().chain(addresses) {
        let mut room = [0xA5; 8];
        assert_eq!(write_line(&mut room, line), REFUSED);
        assert_eq!(room, [0xA5; 8]);
    }
}

#[test]
fn a_room_has_eight_bytes() {
    for length in [0, 1, 7, 9, 16] {
        let mut room = vec![0xA5; length];
        assert_eq!(write_line(&mut room, SOUND), REFUSED, "room of {length}");
        assert!(room.iter().all(|byte| *byte == 0xA5));
    }
    let mut room = [0xA5; 8];
    assert!(write_line(&mut room, SOUND).done());
    assert_eq!(room, [0x21, 0, 8, 0, 0x10, 0, 0, 0]);
}

/// P3, and parts that are no line.
#[test]
fn lines_as_they_are_read() {
    let long = read_line(&[0x21, 0, 0, 0, 0, 0, 0, 0]);
    assert_eq!((long.valid, long.act2, long.length), (true, true, 65536));
    assert_eq!(
        read_line(&[0xFF, 0xFF, 1, 0, 0xFF, 0, 0, 0]).address,
        0xFC,
        "low two bits"
    );
    for length in [0, 1, 7, 9] {
        assert_eq!(
            read_line(&vec![0xFF; length]),
            NOTHING,
            "a part of {length}"
        );
    }
}
