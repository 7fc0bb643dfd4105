//! Lines of ADMA2 tables and how they are laid into memory.

use crate::chance::Chance;

pub const VALID: u32 = 0x01;
pub const END: u32 = 0x02;
pub const INT: u32 = 0x04;
pub const NOP: u32 = 0x00;
pub const RESERVED: u32 = 0x10;
pub const TRAN: u32 = 0x20;
pub const LINK: u32 = 0x30;

/// Bits of byte 0 that mean nothing, and byte 1: they must be ignored.
const IGNORED: u32 = 0xFFC8;

/// One line. A length of 65,536 is written as 0.
#[derive(Clone, Copy)]
pub struct Line {
    pub attributes: u32,
    pub length: u32,
    pub address: u32,
}

impl Line {
    pub fn bytes(&self) -> [u8; 8] {
        let mut bytes = [0; 8];
        bytes[..2].copy_from_slice(&(self.attributes as u16).to_le_bytes());
        bytes[2..4].copy_from_slice(&(self.length as u16).to_le_bytes());
        bytes[4..].copy_from_slice(&self.address.to_le_bytes());
        bytes
    }

    /// The line with noise where it must not matter.
    fn noisy(mut self, chance: &mut Chance) -> Line {
        if chance.bit() {
            self.attributes |= chance.word() & IGNORED;
            self.address |= chance.below(4);
        }
        self
    }
}

/// One entry of a table to be laid: a line as it is, or a link to the place of
/// an earlier entry, which is known only when the table lies.
#[derive(Clone, Copy)]
pub enum Entry {
    Line(Line),
    Back { to: usize, attributes: u32 },
}

/// Lays a table at `*at`, which moves behind it, and gives its start. The table
/// may be cut into parts that lie in any order and are joined by links. What
/// does not fit into memory is left away: the table then runs off its end.
pub fn lay(chance: &mut Chance, memory: &mut [u8], at: &mut usize, entries: &[Entry]) -> u32 {
    let parts = cut(chance, entries.len());
    let starts = part_starts(chance, &parts, *at);
    let places = places(&parts, &starts);
    for (part, (first, count)) in parts.iter().enumerate() {
        for index in *first..first + count {
            let line = resolved(entries[index], &places).noisy(chance);
            put(memory, places[index], &line);
        }
        if let Some(next) = starts.get(part + 1) {
            put(memory, starts[part] + 8 * count, &joint(chance, *next));
        }
    }
    *at += 8 * (entries.len() + parts.len() - 1);
    starts[0] as u32
}

// First entry and count of each part.
fn cut(chance: &mut Chance, entries: usize) -> Vec<(usize, usize)> {
    let mut parts = vec![(0, entries)];
    while chance.one_in(3) {
        let (first, count) = parts[parts.len() - 1];
        if count < 2 {
            break;
        }
        let kept = chance.between(1, count as u32 - 1) as usize;
        parts.pop();
        parts.push((first, kept));
        parts.push((first + kept, count - kept));
    }
    parts
}

// Where each part lies: they are put down in an order of chance.
fn part_starts(chance: &mut Chance, parts: &[(usize, usize)], at: usize) -> Vec<usize> {
    let mut order: Vec<usize> = (0..parts.len()).collect();
    for place in (1..order.len()).rev() {
        order.swap(place, chance.below(place as u32 + 1) as usize);
    }
    let mut starts = vec![0; parts.len()];
    let mut next = at;
    for part in order {
        starts[part] = next;
        let joint = usize::from(part + 1 < parts.len());
        next += 8 * (parts[part].1 + joint);
    }
    starts
}

fn places(parts: &[(usize, usize)], starts: &[usize]) -> Vec<usize> {
    let of_part = |((_, count), start): (&(usize, usize), &usize)| {
        let start = *start;
        (0..*count).map(move |index| start + 8 * index)
    };
    parts.iter().zip(starts).flat_map(of_part).collect()
}

fn resolved(entry: Entry, places: &[usize]) -> Line {
    match entry {
        Entry::Line(line) => line,
        Entry::Back { to, attributes } => Line {
            attributes: LINK | VALID | attributes,
            length: 0,
            address: places[to] as u32,
        },
    }
}

fn joint(chance: &mut Chance, to: usize) -> Line {
    Line {
        attributes: LINK | VALID | chance.maybe(INT),
        length: chance.below(65_536),
        address: to as u32,
    }
    .noisy(chance)
}

fn put(memory: &mut [u8], place: usize, line: &Line) {
    if let Some(room) = memory.get_mut(place..place + 8) {
        room.copy_from_slice(&line.bytes());
    }
}

#[cfg(test)]
mod tests {
    use super::*;

    // Follows a laid table and gives the lengths of its Tran lines.
    fn lengths(memory: &[u8], start: u32) -> Vec<u16> {
        let (mut at, mut met) = (start as usize, Vec::new());
        loop {
            let line = &memory[at..at + 8];
            let address = u32::from_le_bytes([line[4], line[5], line[6], line[7]]) & !3;
            match line[0] as u32 & 0x30 {
                LINK => at = address as usize,
                _ => {
                    met.push(u16::from_le_bytes([line[2], line[3]]));
                    at += 8;
                }
            }
            if line[0] as u32 & END != 0 {
                return met;
            }
        }
    }

    #[test]
    fn a_table_in_parts_is_followed_in_order() {
        for file in 0..200 {
            let mut chance = Chance::new(5, file);
            let mut memory = vec![0; 512];
            let entries: Vec<Entry> = (1..=9)
                .map(|length| {
                    Entry::Line(Line {
                        attributes: TRAN | VALID | if length == 9 { END } else { 0 },
                        length,
                        address: 0x100,
                    })
                })
                .collect();
            let mut at = 16;
            let start = lay(&mut chance, &mut memory, &mut at, &entries);
            assert_eq!(lengths(&memory, start), [1, 2, 3, 4, 5, 6, 7, 8, 9]);
            assert!(memory[at..].iter().all(|byte| *byte == 0));
        }
    }

    #[test]
    fn a_table_may_run_off_the_end() {
        let mut chance = Chance::new(5, 0);
        let line = Line {
            attributes: VALID,
            length: 0,
            address: 0,
        };
        let mut memory = vec![0; 12];
        lay(&mut chance, &mut memory, &mut 0, &[Entry::Line(line); 1]);
        lay(&mut chance, &mut memory, &mut 8, &[Entry::Line(line); 1]);
        assert_eq!(memory[8..], [0; 4]);
    }
}
