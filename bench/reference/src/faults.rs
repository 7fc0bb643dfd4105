//! Deliberate faults, only for tests of the comparison.
//!
//! A comparison that finds nothing may be blind. Each fault here breaks one rule at the place
//! where the rule stands, so that the comparison can be shown to find it. Nothing but such a
//! test gives a fault; without one every rule holds.

/// One broken rule.
#[derive(Clone, Copy, Debug, PartialEq, Eq)]
pub enum Fault {
    AckDropsLine,
    AckClearsAll,
    OneComplete,
    EventNeedsNoEnable,
    DisableKeepsBit,
    ZeroIsNoBytes,
    InvalidMovesOn,
    EndUnread,
    ShortIsMismatch,
    FetchInterrupts,
    CountStays,
    AbortFrees,
    RefusalStores,
    ModeHalfStored,
    LongOverwrites,
    ErrorFreesCommand,
    RefusedBlockUsed,
    CommandResetFrees,
    FullResetDropsLevel,
    LevelTwo,
    LastByteLost,
    ShortRoomFilled,
    MemoryUnbounded,
}

impl Fault {
    pub const ALL: [Fault; 23] = [
        Fault::AckDropsLine,
        Fault::AckClearsAll,
        Fault::OneComplete,
        Fault::EventNeedsNoEnable,
        Fault::DisableKeepsBit,
        Fault::ZeroIsNoBytes,
        Fault::InvalidMovesOn,
        Fault::EndUnread,
        Fault::ShortIsMismatch,
        Fault::FetchInterrupts,
        Fault::CountStays,
        Fault::AbortFrees,
        Fault::RefusalStores,
        Fault::ModeHalfStored,
        Fault::LongOverwrites,
        Fault::ErrorFreesCommand,
        Fault::RefusedBlockUsed,
        Fault::CommandResetFrees,
        Fault::FullResetDropsLevel,
        Fault::LevelTwo,
        Fault::LastByteLost,
        Fault::ShortRoomFilled,
        Fault::MemoryUnbounded,
    ];

    /// What is wrong, in one line.
    pub fn words(self) -> &'static str {
        match self {
            Fault::AckDropsLine => "any acknowledgement drops the line",
            Fault::AckClearsAll => "acknowledging one bit clears the whole status word",
            Fault::OneComplete => "Transfer Complete sets the bit of Command Complete",
            Fault::EventNeedsNoEnable => "an event sets its bit without its enable",
            Fault::DisableKeepsBit => "clearing an enable keeps its status bit",
            Fault::ZeroIsNoBytes => "length 0 is taken as no bytes",
            Fault::InvalidMovesOn => "a line with Valid 0 moves 058h past it",
            Fault::EndUnread => "the transfer completes with the End line unread",
            Fault::ShortIsMismatch => "Mismatch is set where only memory is short",
            Fault::FetchInterrupts => "a Tran line raises DMA Interrupt at its fetch",
            Fault::CountStays => "Block Count does not fall",
            Fault::AbortFrees => "an Abort frees the DAT side",
            Fault::RefusalStores => "a refused command stores its bytes",
            Fault::ModeHalfStored => "a command stores the mode half while DAT is inhibited",
            Fault::LongOverwrites => "a response of type 01b overwrites byte 01Fh",
            Fault::ErrorFreesCommand => "a response error frees the command side",
            Fault::RefusedBlockUsed => "a refused block uses up card bytes",
            Fault::CommandResetFrees => "a CMD reset frees the DAT side too",
            Fault::FullResetDropsLevel => "a full reset drops the card's level",
            Fault::LevelTwo => "a file with a level of 2 is taken as good",
            Fault::LastByteLost => "a move of a write loses its last byte",
            Fault::ShortRoomFilled => "a room that is refused is written all the same",
            Fault::MemoryUnbounded => "a turn takes more memory than may be lent",
        }
    }
}

#[cfg(test)]
mod tests {
    use super::*;

    #[test]
    fn each_fault_is_listed_once_in_its_own_words() {
        for (place, fault) in Fault::ALL.into_iter().enumerate() {
            assert_eq!(fault as usize, place);
            let same = Fault::ALL.iter().filter(|f| f.words() == fault.words());
            assert_eq!(same.count(), 1, "{fault:?}");
        }
    }
}
