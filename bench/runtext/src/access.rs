//! Where a register access lies, for saying it in words.

use crate::kinds;
use reference::Step;

/// A read or write that names a place: its four-byte group and its bytes there.
/// Aligned accesses of width 1, 2 or 4 never leave their group.
pub struct Access {
    pub offset: u16,
    pub width: u16,
}

impl Access {
    /// The access of a step, or nothing where the step is none or names no place.
    pub fn of(step: &Step) -> Option<Access> {
        let (offset, width) = (step.offset, step.detail as u16);
        let good = matches!(step.kind, kinds::WRITE | kinds::READ)
            && matches!(width, 1 | 2 | 4)
            && offset % width == 0
            && offset as u32 + width as u32 <= 256;
        good.then_some(Access { offset, width })
    }

    /// The first offset of the access's group.
    pub fn group(&self) -> u16 {
        self.offset & !3
    }

    /// A value of this access, moved to where it stands in its group.
    pub fn in_group(&self, value: u32) -> u32 {
        value << (8 * (self.offset & 3))
    }

    /// Says whether the byte at `offset` is one of this access.
    pub fn holds(&self, offset: u16) -> bool {
        (self.offset..self.offset + self.width).contains(&offset)
    }
}
