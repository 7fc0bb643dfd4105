//! The archive's own types and functions, as `include/sdhc.h` has them.

#[repr(C)]
#[derive(Clone, Copy, Debug, PartialEq, Eq)]
pub struct Setup {
    pub system: u32,
    pub block: u32,
    pub argument: u32,
    pub order: u32,
}

#[repr(C)]
#[derive(Clone, Copy, Debug, PartialEq, Eq)]
pub struct Reply {
    pub first: u32,
    pub second: u32,
    pub third: u32,
    pub fourth: u32,
}

#[repr(C)]
#[derive(Clone, Copy, Debug, PartialEq, Eq)]
pub struct Control {
    pub host: u32,
    pub clock: u32,
}

#[repr(C)]
#[derive(Clone, Copy, Debug, PartialEq, Eq)]
pub struct Interrupts {
    pub status: u32,
    pub enabled: u32,
    pub signal: u32,
}

#[repr(C)]
#[derive(Clone, Copy, Debug, PartialEq, Eq)]
pub struct Adma {
    pub fault: u8,
    pub low: u32,
    pub high: u32,
}

/// The register block, by the words it is made of.
#[repr(C)]
#[derive(Clone, Copy, Debug, PartialEq, Eq)]
pub struct Registers {
    pub setup: Setup,
    pub reply: Reply,
    pub control: Control,
    pub interrupts: Interrupts,
    pub adma: Adma,
}

/// The command side. `tag`: 0 idle, 1 waits, else halted.
#[repr(C)]
#[derive(Clone, Copy, Debug, PartialEq, Eq)]
pub struct Command {
    pub tag: u8,
    pub kind: u8,
    pub crc: u8,
    pub index: u8,
}

/// The engine of a running transfer. `tag`: 0 no line in hand, 1 a line in hand, else stopped.
#[repr(C)]
#[derive(Clone, Copy, Debug, PartialEq, Eq)]
pub struct Stage {
    pub tag: u8,
    pub last: u8,
    pub int: u8,
    pub rest: u32,
    pub at: u32,
}

/// The DAT side. `tag`: 0 free, 1 busy, 2 a running transfer, 3 a halted busy, else a halted transfer.
#[repr(C)]
#[derive(Clone, Copy, Debug, PartialEq, Eq)]
pub struct Dat {
    pub tag: u8,
    pub way: u8,
    pub answered: u8,
    pub counted: u8,
    pub size: u16,
    pub left: u16,
    pub owed: u32,
    pub held: u32,
    pub stage: Stage,
}

/// One slot, but for its buffer. Numbers only: every pattern of bytes is a record and has a meaning.
#[repr(C)]
#[derive(Clone, Copy, Debug, PartialEq, Eq)]
pub struct Record {
    pub registers: Registers,
    pub card: u8,
    pub level: u8,
    pub command: Command,
    pub dat: Dat,
}

#[repr(C)]
#[derive(Clone, Copy)]
pub struct RawAnswer {
    pub number: u32,
    pub value: u32,
}

#[repr(C)]
#[derive(Clone, Copy)]
pub struct RawSurvey {
    pub number: u32,
    pub kind: u32,
    pub state: u32,
    pub lines: u32,
    pub bytes: u32,
    pub after: u32,
}

#[repr(C)]
#[derive(Clone, Copy)]
pub struct RawBoot {
    pub number: u32,
    pub yes: u32,
}

#[repr(C)]
#[derive(Clone, Copy)]
pub struct RawLine {
    pub valid: u8,
    pub end: u8,
    pub int: u8,
    pub act1: u8,
    pub act2: u8,
    pub length: u32,
    pub address: u32,
}

// The other side of the static assertions in include/sdhc.h.
const _: () = assert!(size_of::<Record>() == 100 && align_of::<Record>() == 4);
const _: () = assert!(size_of::<RawAnswer>() == 8 && size_of::<RawSurvey>() == 24);
const _: () = assert!(size_of::<RawBoot>() == 8 && size_of::<RawLine>() == 16);

// Each call is safe with what safe Rust can pass: every record has a meaning, no function has a condition, a pointer and its
// length come from one slice, and the borrows of one call do not overlap.
extern "C" {
    pub fn sdhc_power_on() -> Record;
    pub fn sdhc_line(slot: Record) -> bool;
    pub fn sdhc_read(slot: &mut Record, offset: u32, width: u32) -> RawAnswer;
    pub fn sdhc_write(slot: &mut Record, offset: u32, width: u32, value: u32) -> RawAnswer;
    pub fn sdhc_card_in(slot: &mut Record) -> RawAnswer;
    pub fn sdhc_card_out(slot: &mut Record) -> RawAnswer;
    pub fn sdhc_respond(
        slot: &mut Record,
        result: u32,
        first: u32,
        second: u32,
        third: u32,
        fourth: u32,
    ) -> RawAnswer;
    pub fn sdhc_set_level(slot: &mut Record, up: u32) -> RawAnswer;
    pub fn sdhc_busy_over(slot: &mut Record) -> RawAnswer;
    pub fn sdhc_data_error(slot: &mut Record, number: u32) -> RawAnswer;
    pub fn sdhc_given(
        slot: &mut Record,
        buffer: &mut [u8; 512],
        block: *const u8,
        length: usize,
    ) -> RawAnswer;
    pub fn sdhc_taken(
        slot: &mut Record,
        buffer: &[u8; 512],
        room: *mut u8,
        length: usize,
    ) -> RawAnswer;
    pub fn sdhc_turn(
        slot: &mut Record,
        buffer: &mut [u8; 512],
        memory: *mut u8,
        length: usize,
    ) -> RawAnswer;
    pub fn sdhc_survey(
        memory: *const u8,
        length: usize,
        start: u32,
        owed: u32,
        limit: u32,
    ) -> RawSurvey;
    pub fn sdhc_boot_check(memory: *const u8, length: usize, start: u32, owed: u32) -> RawBoot;
    pub fn sdhc_write_line(room: *mut u8, length: usize, line: RawLine) -> RawAnswer;
    pub fn sdhc_read_line(bytes: *const u8, length: usize) -> RawLine;
}
