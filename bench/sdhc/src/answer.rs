//! What a step answers.

use crate::raw::RawAnswer;

/// The numbers of document 01, by their reasons.
#[derive(Clone, Copy, Debug, PartialEq, Eq)]
#[repr(u32)]
pub enum Number {
    Done = 0,
    NoPlace = 1,
    DatInhibited = 2,
    CommandInhibited = 3,
    DatInUse = 4,
    Unpowered = 5,
    NotCarried = 6,
    OutOfTurn = 7,
    WrongLength = 8,
    NotYet = 9,
    NoTransfer = 10,
    MemoryTooLarge = 11,
    LimitTooHigh = 12,
    LineRefused = 17,
}

impl Number {
    /// The number that the archive gave. It gives no other than these.
    #[inline]
    pub(crate) fn from_raw(n: u32) -> Number {
        match n {
            0 => Number::Done,
            1 => Number::NoPlace,
            2 => Number::DatInhibited,
            3 => Number::CommandInhibited,
            4 => Number::DatInUse,
            5 => Number::Unpowered,
            6 => Number::NotCarried,
            7 => Number::OutOfTurn,
            8 => Number::WrongLength,
            9 => Number::NotYet,
            10 => Number::NoTransfer,
            11 => Number::MemoryTooLarge,
            12 => Number::LimitTooHigh,
            17 => Number::LineRefused,
            other => panic!("the archive answered {other}, which document 01 does not have"),
        }
    }
}

/// A number and a value; the value is 0 unless the number is 0.
#[derive(Clone, Copy, Debug, PartialEq, Eq)]
pub struct Answer {
    pub number: Number,
    pub value: u32,
}

impl Answer {
    #[inline]
    pub(crate) fn from_raw(a: RawAnswer) -> Answer {
        Answer {
            number: Number::from_raw(a.number),
            value: a.value,
        }
    }

    /// Was the step done? A step that was not has changed nothing.
    #[inline]
    pub fn done(self) -> bool {
        self.number == Number::Done
    }
}
