//! The layout of a run file without judging its fields.

use reference::{RunFile, Step};

const STEP_BYTES: usize = 20;

/// The three sections of a file whose counts fit its length exactly, be their
/// fields good or bad. The reference refuses a file with a bad field as a
/// whole; this shows what was in it.
pub fn layout(bytes: &[u8]) -> Option<RunFile> {
    let (memory, rest) = counted(bytes, 1)?;
    let (steps, rest) = counted(rest, STEP_BYTES)?;
    let (card, rest) = counted(rest, 1)?;
    if !rest.is_empty() {
        return None;
    }
    Some(RunFile {
        memory: memory.to_vec(),
        steps: steps.chunks_exact(STEP_BYTES).map(step).collect(),
        card: card.to_vec(),
    })
}

fn counted(bytes: &[u8], each: usize) -> Option<(&[u8], &[u8])> {
    let (count, rest) = bytes.split_first_chunk::<4>()?;
    let length = usize::try_from(u32::from_le_bytes(*count))
        .ok()?
        .checked_mul(each)?;
    if length > rest.len() {
        return None;
    }
    Some(rest.split_at(length))
}

fn step(bytes: &[u8]) -> Step {
    let word = |place: usize| {
        let at = 4 + 4 * place;
        u32::from_le_bytes([bytes[at], bytes[at + 1], bytes[at + 2], bytes[at + 3]])
    };
    Step {
        kind: bytes[0],
        detail: bytes[1],
        offset: u16::from_le_bytes([bytes[2], bytes[3]]),
        words: [word(0), word(1), word(2), word(3)],
    }
}
