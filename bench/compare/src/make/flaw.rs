//! What can be wrong with the bytes of a file beside its steps.

use crate::chance::Chance;
use reference::RunFile;

/// One change to a file's bytes. It stands beside the file, so that the file can
/// be made smaller and still get the same flaw.
#[derive(Clone, Debug, PartialEq, Eq)]
pub enum Flaw {
    None,
    /// One of the three counts is off by so much, modulo 2 to the 32.
    Count {
        section: usize,
        off: u32,
    },
    /// Only so many bytes from the front are kept.
    Kept(usize),
    /// So many bytes at the end are missing.
    Missing(usize),
    /// Bytes after the last section.
    Trailing(Vec<u8>),
}

/// Counts off by a little, and by what vanishes when a count is multiplied by
/// 20, or cut, in 32 or 16 bits.
const OFF: [u32; 8] = [
    1,
    1,
    u32::MAX,
    0x8000_0000,
    0x4000_0000,
    0x0CCC_CCCD,
    0x0001_0000,
    0xFFFF_FF00,
];

impl Flaw {
    pub fn any(chance: &mut Chance) -> Flaw {
        let few = chance.between(1, 21) as usize;
        match chance.below(6) {
            0..=2 => Flaw::Count {
                section: chance.below(3) as usize,
                off: chance.pick(&OFF),
            },
            3 => Flaw::Kept(few - 1),
            4 => Flaw::Missing(few),
            _ => Flaw::Trailing(chance.bytes(few)),
        }
    }

    /// The file's bytes with this flaw.
    pub fn bytes(&self, file: &RunFile) -> Vec<u8> {
        let mut bytes = reference::encode(file);
        match self {
            Flaw::None => {}
            Flaw::Count { section, off } => {
                let steps = 4 + file.memory.len();
                let card = steps + 4 + 20 * file.steps.len();
                let at = [0, steps, card][*section];
                add(&mut bytes[at..at + 4], *off);
            }
            Flaw::Kept(count) => bytes.truncate(*count),
            Flaw::Missing(count) => bytes.truncate(bytes.len().saturating_sub(*count)),
            Flaw::Trailing(more) => bytes.extend(more),
        }
        bytes
    }
}

fn add(count: &mut [u8], off: u32) {
    let old = u32::from_le_bytes([count[0], count[1], count[2], count[3]]);
    count.copy_from_slice(&old.wrapping_add(off).to_le_bytes());
}

#[cfg(test)]
mod tests {
    use super::*;
    use runtext::kinds;

    fn small() -> RunFile {
        RunFile {
            memory: vec![7],
            steps: vec![kinds::plain(kinds::IN)],
            card: vec![9, 9],
        }
    }

    #[test]
    fn no_flaw_leaves_the_file() {
        assert_eq!(Flaw::None.bytes(&small()), reference::encode(&small()));
    }

    #[test]
    fn every_flaw_makes_the_file_bad() {
        let mut chance = Chance::new(1, 1);
        for _ in 0..500 {
            let flaw = Flaw::any(&mut chance);
            assert_eq!(reference::parse(&flaw.bytes(&small())), None, "{flaw:?}");
        }
    }
}
