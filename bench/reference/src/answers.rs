//! What a step answers.
//!
//! Answer 0 is the `Ok` side of a step's result; every other number is a refusal. A refusal
//! carries no value and its step changes nothing, which the `Result` shape makes hard to forget.

/// The reasons to refuse a step, under the numbers of the paper's table.
#[derive(Clone, Copy, Debug, PartialEq, Eq)]
pub enum Refusal {
    /// 1: the access names no place, or the value does not fit its width.
    NoPlace,
    /// 2: a guarded register while the DAT side is inhibited.
    Guarded,
    /// 3: a command while the command side is inhibited.
    CommandInhibited,
    /// 4: a command that needs the DAT side while that is inhibited.
    DatInhibited,
    /// 5: a command with the card's clock or power off.
    Unpowered,
    /// 6: a command whose settings are not carried.
    NotCarried,
    /// 7: an event out of turn.
    OutOfTurn,
    /// 8: a block of the wrong length, or too little room for one.
    WrongBlock,
    /// 9: a turn that has to wait for the response or the card.
    NotYet,
    /// 10: a turn with nothing to do.
    NoTransfer,
    /// 11: more memory lent than the engine accepts.
    MemoryTooLarge,
    /// 12: a survey limit that is too high.
    LimitTooHigh,
    /// 17: a line that cannot be written.
    UnwritableLine,
}

impl Refusal {
    /// The paper's number.
    pub fn number(self) -> u32 {
        match self {
            Refusal::NoPlace => 1,
            Refusal::Guarded => 2,
            Refusal::CommandInhibited => 3,
            Refusal::DatInhibited => 4,
            Refusal::Unpowered => 5,
            Refusal::NotCarried => 6,
            Refusal::OutOfTurn => 7,
            Refusal::WrongBlock => 8,
            Refusal::NotYet => 9,
            Refusal::NoTransfer => 10,
            Refusal::MemoryTooLarge => 11,
            Refusal::LimitTooHigh => 12,
            Refusal::UnwritableLine => 17,
        }
    }
}

/// The number of answer "done".
pub const DONE: u32 = 0;

/// The most memory that may be lent to a turn, a survey or a boot check.
const MOST_MEMORY: usize = 16_777_216;

/// Refuses memory that is too large; asked before anything else where memory is lent.
pub fn accept_memory(memory: &[u8]) -> Result<(), Refusal> {
    if memory.len() > MOST_MEMORY {
        return Err(Refusal::MemoryTooLarge);
    }
    Ok(())
}

#[cfg(test)]
mod tests {
    use super::*;

    #[test]
    fn every_refusal_has_its_own_number() {
        let refusals = [
            Refusal::NoPlace,
            Refusal::Guarded,
            Refusal::CommandInhibited,
            Refusal::DatInhibited,
            Refusal::Unpowered,
            Refusal::NotCarried,
            Refusal::OutOfTurn,
            Refusal::WrongBlock,
            Refusal::NotYet,
            Refusal::NoTransfer,
            Refusal::MemoryTooLarge,
            Refusal::LimitTooHigh,
            Refusal::UnwritableLine,
        ];
        let numbers = refusals.map(Refusal::number);
        assert_eq!(numbers, [1, 2, 3, 4, 5, 6, 7, 8, 9, 10, 11, 12, 17]);
    }
}
