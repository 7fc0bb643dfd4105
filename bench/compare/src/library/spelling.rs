//! Other records that spell the same state: a flag is up by any number but 0, the last tag of a
//! kind stands for all above it, and what a tag does not speak of may be anything. The library
//! itself spells a state in one way, in which what a tag does not speak of is 0.

use crate::chance::Chance;
use sdhc::{Command, Dat, Record, Stage};

/// The same state, spelled by chance.
pub fn respelled(chance: &mut Chance, record: &Record) -> Record {
    Record {
        registers: record.registers,
        card: flag(chance, record.card),
        level: flag(chance, record.level),
        command: command(chance, record.command),
        dat: dat(chance, record.dat),
    }
}

/// Whether a record is as the library spells it: what its tags do not speak of is 0.
pub fn is_plain(record: &Record) -> bool {
    let (command, dat) = (&record.command, &record.dat);
    let silent = (command.kind, command.crc, command.index) == (0, 0, 0);
    (command.tag == 1 || silent) && *dat == spoken(dat)
}

// What the tag of the DAT side speaks of, and 0 for all else.
fn spoken(dat: &Dat) -> Dat {
    let none = Stage {
        tag: 0,
        last: 0,
        int: 0,
        rest: 0,
        at: 0,
    };
    let rest = Dat {
        tag: dat.tag,
        way: 0,
        answered: 0,
        counted: 0,
        size: 0,
        left: 0,
        owed: 0,
        held: 0,
        stage: none,
    };
    let tag = dat.stage.tag;
    match (dat.tag, tag) {
        (0 | 3, _) => rest,
        (1, _) => Dat {
            answered: dat.answered,
            ..rest
        },
        (2, 1) => *dat,
        (2, _) => Dat {
            stage: Stage { tag, ..none },
            ..*dat
        },
        _ => Dat {
            way: dat.way,
            ..rest
        },
    }
}

fn flag(chance: &mut Chance, flag: u8) -> u8 {
    match flag {
        0 => 0,
        _ => chance.between(1, 255) as u8,
    }
}

fn tag(chance: &mut Chance, tag: u8, last: u8) -> u8 {
    match tag < last {
        true => tag,
        false => chance.between(u32::from(last), 255) as u8,
    }
}

fn byte(chance: &mut Chance) -> u8 {
    chance.next() as u8
}

// Only of a command that waits is there more to tell.
fn command(chance: &mut Chance, command: Command) -> Command {
    match command.tag {
        1 => Command {
            tag: 1,
            kind: tag(chance, command.kind, 3),
            crc: flag(chance, command.crc),
            index: flag(chance, command.index),
        },
        other => Command {
            tag: tag(chance, other, 2),
            kind: byte(chance),
            crc: byte(chance),
            index: byte(chance),
        },
    }
}

// A busy tells whether it is answered, a halted transfer its way, a running one all.
fn dat(chance: &mut Chance, dat: Dat) -> Dat {
    let free = Dat {
        tag: tag(chance, dat.tag, 4),
        way: byte(chance),
        answered: byte(chance),
        counted: byte(chance),
        size: chance.next() as u16,
        left: chance.next() as u16,
        owed: chance.word(),
        held: chance.word(),
        stage: any_stage(chance, dat.stage.tag),
    };
    match dat.tag {
        0 | 3 => free,
        1 => Dat {
            answered: flag(chance, dat.answered),
            ..free
        },
        2 => Dat {
            way: flag(chance, dat.way),
            answered: flag(chance, dat.answered),
            counted: flag(chance, dat.counted),
            stage: stage(chance, dat.stage),
            ..dat
        },
        _ => Dat {
            way: flag(chance, dat.way),
            ..free
        },
    }
}

fn any_stage(chance: &mut Chance, tag: u8) -> Stage {
    Stage {
        tag,
        last: byte(chance),
        int: byte(chance),
        rest: chance.word(),
        at: chance.word(),
    }
}

// Only of a line in hand is there more to tell.
fn stage(chance: &mut Chance, stage: Stage) -> Stage {
    match stage.tag {
        1 => Stage {
            last: flag(chance, stage.last),
            int: flag(chance, stage.int),
            ..stage
        },
        other => {
            let tag = tag(chance, other, 2);
            any_stage(chance, tag)
        }
    }
}

#[cfg(test)]
mod tests {
    use super::*;
    use sdhc::Slot;

    #[test]
    fn what_a_tag_does_not_speak_of_is_0() {
        let mut record = *Slot::power_on().record();
        assert!(is_plain(&record));
        record.dat.answered = 1;
        assert!(!is_plain(&record));
        record.dat.tag = 1;
        assert!(is_plain(&record));
        record.command.crc = 1;
        assert!(!is_plain(&record));
        record.command.tag = 1;
        assert!(is_plain(&record));
    }

    #[test]
    fn another_spelling_reads_the_same() {
        let mut chance = Chance::new(1, 1);
        let mut slot = Slot::power_on();
        slot.card_in();
        slot.set_level(true);
        slot.mmio_write(0x034, &u32::MAX.to_le_bytes());
        for _ in 0..100 {
            let record = respelled(&mut chance, slot.record());
            assert_ne!(record, *slot.record());
            let mut other = Slot::restored(record, *slot.buffer());
            for offset in (0..0x100).step_by(4) {
                let (mut left, mut right) = ([0; 4], [0; 4]);
                slot.mmio_read(offset, &mut left);
                other.mmio_read(offset, &mut right);
                assert_eq!(left, right, "{offset:03X}h");
            }
        }
    }
}
