//! The ends a transfer's table can be made for.

use super::table::{Entry, Line, END, INT, LINK, NOP, RESERVED, TRAN, VALID};
use crate::chance::Chance;

/// What the table leads to, if the driver lets it.
#[derive(Clone, Copy, Debug, PartialEq, Eq)]
pub enum Fate {
    /// All bytes named, then End.
    Well,
    /// End with bytes still owed.
    Owed,
    /// A line with Valid 0.
    Invalid,
    /// A link to where no line can lie.
    Beyond,
    /// A Tran longer than the bytes still owed.
    TooLong,
    /// A Tran that reaches past memory.
    Past,
    /// A Tran that does both.
    Both,
    /// A link back to the first line, until the bytes are used up.
    Loop,
    /// Lines that never name a byte and never end.
    Endless,
}

/// All fates with their weights: good ends first, they take the longest way.
pub const FATES: [(u32, Fate); 9] = [
    (10, Fate::Well),
    (2, Fate::Owed),
    (2, Fate::Invalid),
    (1, Fate::Beyond),
    (2, Fate::TooLong),
    (2, Fate::Past),
    (1, Fate::Both),
    (1, Fate::Loop),
    (1, Fate::Endless),
];

/// More bytes than this take more lines than a file has steps for.
const MOST_NAMED: u32 = 4_096;

/// Where data may lie: memory's length, and the lowest address that spares the
/// tables.
#[derive(Clone, Copy)]
pub struct Area {
    pub length: u32,
    pub low: u32,
}

impl Area {
    // A place for so many bytes, often the last one that fits.
    fn spot(&self, chance: &mut Chance, count: u32) -> u32 {
        let last = self.length.saturating_sub(count) & !3;
        if chance.one_in(4) || last <= self.low {
            return last;
        }
        (self.low + chance.below(last - self.low + 1)) & !3
    }

    // A place from which so many bytes do not fit, often by very little.
    fn past(&self, chance: &mut Chance, count: u32) -> u32 {
        let first = (self.length.saturating_sub(count) + 4) & !3;
        chance.pick(&[first, first, first + 8, self.length & !3, 0x0010_0000, !3])
    }
}

/// The lines of a table for `owed` bytes.
pub fn entries(chance: &mut Chance, fate: Fate, owed: u32, area: Area) -> Vec<Entry> {
    let named = match fate {
        Fate::Well => owed,
        Fate::Endless => 0,
        _ if chance.bit() => 0,
        _ => chance.below(owed),
    };
    let named = named.min(MOST_NAMED);
    let mut entries = pieces(chance, named, area);
    let rest = owed - named;
    match fate {
        Fate::Well | Fate::Owed => end(chance, &mut entries),
        Fate::Loop | Fate::Endless => turn_back(chance, &mut entries),
        fate => entries.push(Entry::Line(fault(chance, fate, rest, area))),
    }
    entries
}

// Tran lines for so many bytes, with lines between that only step on.
fn pieces(chance: &mut Chance, named: u32, area: Area) -> Vec<Entry> {
    let mut entries = Vec::new();
    let mut left = named;
    while left > 0 {
        if chance.one_in(3) {
            entries.push(Entry::Line(filler(chance)));
        }
        let length = match chance.below(4) {
            0 => left,
            1 => chance.between(1, left.min(9)),
            _ => chance.between(1, left),
        };
        entries.push(Entry::Line(tran(chance, length, area)));
        left -= length;
    }
    entries
}

fn tran(chance: &mut Chance, length: u32, area: Area) -> Line {
    Line {
        attributes: TRAN | VALID | chance.maybe(INT),
        length,
        address: area.spot(chance, length),
    }
}

fn filler(chance: &mut Chance) -> Line {
    Line {
        attributes: chance.pick(&[NOP, RESERVED]) | VALID | chance.maybe(INT),
        length: chance.pick(&[0, 8, 65_535]),
        address: chance.word(),
    }
}

// End on the last line, or on one of its own: the last block is then through
// before End is read.
fn end(chance: &mut Chance, entries: &mut Vec<Entry>) {
    if let Some(Entry::Line(last)) = entries.last_mut() {
        if chance.bit() {
            last.attributes |= END;
            return;
        }
    }
    let mut last = filler(chance);
    last.attributes |= END | chance.pick(&[NOP, RESERVED, LINK]);
    entries.push(Entry::Line(last));
}

fn turn_back(chance: &mut Chance, entries: &mut Vec<Entry>) {
    if entries.is_empty() {
        entries.push(Entry::Line(filler(chance)));
    }
    entries.push(Entry::Back {
        to: chance.below(entries.len() as u32) as usize,
        attributes: chance.maybe(INT),
    });
}

fn fault(chance: &mut Chance, fate: Fate, rest: u32, area: Area) -> Line {
    let more = rest + chance.pick(&[1, 1, 4, 8, 512]);
    let fitting = match rest {
        65_536.. => 65_536,
        _ => chance.between(1, rest.max(1)),
    };
    let (act, length, address) = match fate {
        Fate::TooLong => (TRAN, more, area.spot(chance, more)),
        Fate::Past => (TRAN, fitting, area.past(chance, fitting)),
        Fate::Both if chance.bit() => (TRAN, 65_536, 0),
        Fate::Both => (TRAN, more, area.past(chance, more)),
        Fate::Beyond => (LINK, 0, beyond(chance, area)),
        _ => (chance.pick(&[NOP, TRAN, LINK]), fitting, 0),
    };
    let valid = if fate == Fate::Invalid { 0 } else { VALID };
    // A line that fails is not done, so its Int and End must not count; a link
    // is done, and End on it would stop the engine before the missing line.
    let end = if act == LINK && valid == VALID {
        0
    } else {
        chance.maybe(END)
    };
    Line {
        attributes: act | valid | end | chance.maybe(INT),
        length,
        address,
    }
}

// From the first place at which the last byte of a line is missing.
fn beyond(chance: &mut Chance, area: Area) -> u32 {
    let first = (area.length.saturating_sub(8) + 4) & !3;
    chance.pick(&[first, area.length & !3, (area.length + 64) & !3, !7])
}
