//! Blocks and bytes are two counters and one never stands in for the other.

/// A number of blocks.
#[derive(Clone, Copy, Debug, PartialEq, Eq, PartialOrd, Ord)]
pub struct Blocks(pub u16);

/// A number of bytes.
#[derive(Clone, Copy, Debug, PartialEq, Eq, PartialOrd, Ord)]
pub struct Bytes(pub u32);

impl Blocks {
    pub const NONE: Blocks = Blocks(0);
    pub const ONE: Blocks = Blocks(1);

    /// The only crossing from blocks to bytes. A carried block has at most 512 bytes, so the
    /// product stays far below the top of 32 bits; saturating says that without a panic.
    pub fn of_size(self, block_size: Bytes) -> Bytes {
        Bytes(u32::from(self.0).saturating_mul(block_size.0))
    }

    /// One block less, after it was given or taken.
    pub fn less_one(self) -> Blocks {
        Blocks(self.0.saturating_sub(1))
    }
}

impl Bytes {
    pub const NONE: Bytes = Bytes(0);

    /// The length of a slice. Every slice counted here is bounded by the memory limit or by a
    /// block, so the saturation never happens.
    pub fn in_slice(slice: &[u8]) -> Bytes {
        Bytes(u32::try_from(slice.len()).unwrap_or(u32::MAX))
    }

    /// What is left after `moved` bytes.
    pub fn less(self, moved: Bytes) -> Bytes {
        Bytes(self.0.saturating_sub(moved.0))
    }

    /// This number as the length of a slice.
    pub fn as_len(self) -> usize {
        usize::try_from(self.0).unwrap_or(usize::MAX)
    }
}
