//! Lines written and read back, and parts of memory read as lines.

use super::look::same_bytes;
use super::met::{Met, Odd};
use crate::chance::Chance;
use sdhc::Line;

/// Lines written and parts read beside one file.
const TIMES: usize = 8;

/// Writes and reads some lines by both sides.
pub fn compare(chance: &mut Chance, met: &mut Met) -> Result<(), String> {
    for _ in 0..TIMES {
        let line = any(chance);
        let length = chance.pick(&[8, 8, 8, 8, 8, 0, 7, 9, 16]);
        written(line, length, met)
            .map_err(|what| format!("{line:?} into {length} bytes: {what}"))?;
        let length = chance.pick(&[8, 8, 8, 8, 0, 4, 7, 9, 16]);
        let part = chance.bytes(length);
        read(&part).map_err(|what| format!("{part:02X?} read: {what}"))?;
        met.count_if(length == 8, Odd::LineRead);
        met.count_if(length != 8, Odd::PartRead);
    }
    Ok(())
}

fn any(chance: &mut Chance) -> Line {
    let length = match chance.below(3) {
        0 => chance.pick(&[0, 1, 65_535, 65_536, 65_537, u32::MAX]),
        1 => chance.word(),
        _ => chance.between(1, 65_536),
    };
    let address = chance.word();
    Line {
        valid: chance.bit(),
        end: chance.bit(),
        int: chance.bit(),
        act1: chance.bit(),
        act2: chance.bit(),
        length,
        address: if chance.one_in(4) {
            address
        } else {
            address & !3
        },
    }
}

fn flags(line: Line) -> [bool; 5] {
    [line.valid, line.end, line.int, line.act1, line.act2]
}

// What a refusal leaves of the room is its bytes as they were; what is written reads back.
fn written(line: Line, length: usize, met: &mut Met) -> Result<(), String> {
    let mut left = vec![0xEE; length];
    let mut right = left.clone();
    let answer = sdhc::write_line(&mut left, line);
    let wanted = reference::write_line(&mut right, flags(line), line.length, line.address);
    let given = (answer.number as u32, answer.value);
    if given != (wanted, 0) {
        return Err(format!("library {given:?}, reference {wanted}"));
    }
    same_bytes("the room", &left, &right)?;
    met.count_if(wanted == 17, Odd::LineRefused);
    if wanted == 0 {
        read(&left)?;
        if sdhc::read_line(&left) != line {
            return Err("it does not read back".to_string());
        }
        met.count(Odd::LineWritten);
    }
    Ok(())
}

fn read(part: &[u8]) -> Result<(), String> {
    let given = sdhc::read_line(part);
    let wanted = reference::read_line(part);
    match (flags(given), given.length, given.address) == wanted {
        true => Ok(()),
        false => Err(format!("library {given:?}, reference {wanted:?}")),
    }
}
