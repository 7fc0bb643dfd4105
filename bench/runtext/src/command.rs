//! A command as it is issued, in words.

use crate::access::Access;
use crate::kinds;
use reference::{Machine, Step};

const COMMAND_HIGH: u16 = 0x00F;
const MODE: u16 = 0x00C;
const DAT_INHIBIT: u32 = 2;

/// The settings a command is issued with.
pub struct Command {
    bits: u16,
    mode: u16,
    block_size: u32,
    block_count: u32,
}

impl Command {
    /// The command a write would issue: one whose bytes include 00Fh. Halves the
    /// write does not bring are those stored before it.
    pub fn of(step: &Step, before: &Machine) -> Option<Command> {
        let access = Access::of(step)?;
        if step.kind != kinds::WRITE || !access.holds(COMMAND_HIGH) {
            return None;
        }
        let stored = before.peek(MODE as u32);
        let kept = match access.width {
            1 => 0x00FF_FFFF,
            2 => 0x0000_FFFF,
            _ if before.peek(0x024) & DAT_INHIBIT != 0 => 0x0000_FFFF,
            _ => 0,
        };
        let both = stored & kept | access.in_group(step.words[0]) & !kept;
        let blocks = before.peek(0x004);
        Some(Command {
            bits: (both >> 16) as u16,
            mode: both as u16,
            block_size: blocks & 0xFFF,
            block_count: blocks >> 16,
        })
    }

    /// Index, type, response and data of the command.
    pub fn words(&self) -> String {
        let index = self.bits >> 8 & 0x3F;
        let kind = ["normal", "suspend", "resume", "abort"][(self.bits >> 6 & 3) as usize];
        let response = match self.bits & 3 {
            0 => "no response",
            1 => "response of 136 bits",
            2 => "response of 48 bits",
            _ => "response of 48 bits with busy",
        };
        format!(
            "CMD{index}, {kind}, {response}{}{}",
            self.checks(),
            self.data()
        )
    }

    fn checks(&self) -> &'static str {
        match self.bits >> 3 & 3 {
            0 => "",
            1 => " (CRC checked)",
            2 => " (index checked)",
            _ => " (CRC and index checked)",
        }
    }

    fn data(&self) -> String {
        if self.bits & 0x20 == 0 {
            return ", no data".to_string();
        }
        let way = if self.mode & 0x10 == 0 {
            "write"
        } else {
            "read"
        };
        let blocks = if self.mode & 0x20 == 0 {
            1
        } else {
            self.block_count
        };
        let plural = if blocks == 1 { "" } else { "s" };
        format!(
            ", data: {way} {blocks} block{plural} of {} bytes",
            self.block_size
        )
    }
}

#[cfg(test)]
mod tests {
    use super::*;

    fn words(bits: u16, mode: u16) -> String {
        let command = Command {
            bits,
            mode,
            block_size: 512,
            block_count: 8,
        };
        command.words()
    }

    #[test]
    fn the_paper_s_write_is_named() {
        assert_eq!(
            words(0x183A, 0x0001),
            "CMD24, normal, response of 48 bits (CRC and index checked), \
             data: write 1 block of 512 bytes"
        );
    }

    #[test]
    fn multi_counts_the_blocks() {
        assert!(words(0x123A, 0x33).ends_with("read 8 blocks of 512 bytes"));
    }

    #[test]
    fn an_abort_is_named() {
        assert_eq!(
            words(0x0CDB, 0),
            "CMD12, abort, response of 48 bits with busy (CRC and index checked), no data"
        );
    }
}
