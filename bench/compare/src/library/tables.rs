//! Surveys and boot checks, of the tables that the run files hold and of long ones.

use super::met::{Met, Odd};
use super::odd::Lent;
use crate::chance::Chance;
use reference::RunFile;
use runtext::kinds;

/// Surveys over the memory of one file.
const TIMES: usize = 8;
/// The highest limit, and as many lines.
const LINES: u32 = 4_096;

/// One table to be followed.
#[derive(Clone, Copy, Debug)]
struct Asked {
    start: u32,
    owed: u32,
    limit: u32,
}

/// Surveys a file's memory from the places its steps name, and now and then more.
pub fn compare(
    file: &RunFile,
    chance: &mut Chance,
    lent: &Lent,
    met: &mut Met,
) -> Result<(), String> {
    let (starts, sizes) = named(file);
    for _ in 0..TIMES {
        let asked = Asked {
            start: one_of(chance, &starts, file.memory.len()),
            owed: one_of(chance, &sizes, 600),
            limit: limit(chance),
        };
        both(&file.memory, asked, met)?;
    }
    if chance.one_in(16) {
        many_lines(chance, met)?;
    }
    if chance.one_in(16) {
        too_much(chance, lent, met)?;
    }
    Ok(())
}

// What the file's steps write to 058h, and the products of what they write to 004h.
fn named(file: &RunFile) -> (Vec<u32>, Vec<u32>) {
    let written = |offset: u16| {
        let there = move |step: &&reference::Step| {
            step.kind == kinds::WRITE && step.offset == offset && step.detail == 4
        };
        file.steps.iter().filter(there).map(|step| step.words[0])
    };
    let sizes = written(0x004).map(|word| (word & 0xFFF) * (word >> 16).max(1));
    (written(0x058).collect(), sizes.collect())
}

fn one_of(chance: &mut Chance, list: &[u32], usual: usize) -> u32 {
    match chance.below(8) {
        0 => chance.word(),
        1 | 2 => chance.below(usual as u32 + 16),
        _ if list.is_empty() => chance.below(usual as u32 + 1),
        _ => chance.pick(list),
    }
}

fn limit(chance: &mut Chance) -> u32 {
    match chance.below(4) {
        0 => 0,
        1 => chance.below(8),
        2 => chance.pick(&[64, 65, LINES - 1, LINES, LINES + 1, u32::MAX]),
        _ => chance.below(200),
    }
}

// One table by both: every field of the survey, and the boot check of the same table.
fn both(memory: &[u8], asked: Asked, met: &mut Met) -> Result<(), String> {
    let Asked { start, owed, limit } = asked;
    let given = sdhc::survey(memory, start, owed, limit);
    let expected = reference::survey(memory, start, owed, limit);
    let fields = [
        given.number as u32,
        given.kind as u32,
        u32::from(given.state),
        given.lines,
        given.bytes,
        given.after,
    ];
    let wanted = [
        expected.answer,
        expected.kind,
        expected.state,
        expected.lines,
        expected.bytes,
        expected.after,
    ];
    if fields != wanted {
        return Err(format!(
            "a survey, {asked:?} (answer, kind, state, lines, bytes, after): library {fields:X?}, reference {wanted:X?}"
        ));
    }
    surveyed(wanted, met);
    boot(memory, asked, met)
}

fn surveyed([answer, kind, _, lines, ..]: [u32; 6], met: &mut Met) {
    met.count_if(answer == 0 && kind == 0, Odd::SurveyWell);
    met.count_if(answer == 0 && kind == 1, Odd::SurveyError);
    met.count_if(answer == 0 && kind == 2, Odd::SurveyLimit);
    met.count_if(answer == 11, Odd::SurveyOverTooMuch);
    met.count_if(answer == 12, Odd::SurveyLimitTooHigh);
    met.count_if(lines == LINES, Odd::SurveyOfManyLines);
}

fn boot(memory: &[u8], asked: Asked, met: &mut Met) -> Result<(), String> {
    let Asked { start, owed, .. } = asked;
    let given = sdhc::boot_check(memory, start, owed);
    let given = (given.number as u32, given.yes);
    let wanted = reference::boot_check(memory, start, owed);
    if given != wanted {
        return Err(format!(
            "a boot check, {asked:?} (answer, yes): library {given:?}, reference {wanted:?}"
        ));
    }
    met.count_if(wanted == (0, true), Odd::BootYes);
    met.count_if(wanted == (0, false), Odd::BootNo);
    met.count_if(wanted.0 == 11, Odd::BootOverTooMuch);
    Ok(())
}

// As many lines as a survey follows at most: lines that step on, or that name one byte each,
// with End on the last or on none.
fn many_lines(chance: &mut Chance, met: &mut Met) -> Result<(), String> {
    let named = chance.bit();
    let first = if named { 0x21 } else { 0x01 };
    let mut memory: Vec<u8> = (0..LINES)
        .flat_map(|_| [first, 0, 1, 0, 0, 0, 0, 0])
        .collect();
    if chance.bit() {
        let last = memory.len() - 8;
        memory[last] |= 0x02;
    }
    let asked = Asked {
        start: 0,
        owed: if named { LINES } else { 0 },
        limit: LINES,
    };
    both(&memory, asked, met)
}

// Answer 11 comes first, also before 12.
fn too_much(chance: &mut Chance, lent: &Lent, met: &mut Met) -> Result<(), String> {
    let asked = Asked {
        start: chance.word(),
        owed: chance.word(),
        limit: limit(chance),
    };
    both(&lent.library, asked, met)
}
