//! Helpers of the tests: steps by name, and a bench that asserts while it steps.
#![allow(dead_code)]

use reference::{Machine, RunFile, Seen, Step};

/// Single write, single read, and both with Multi: mode and command as one word for 00Ch/4.
pub const WRITE_ONE: u32 = 0x183A_0001;
pub const READ_ONE: u32 = 0x113A_0011;
pub const WRITE_MANY: u32 = 0x193A_0023;
pub const READ_MANY: u32 = 0x123A_0033;

/// Commands without data for 00Eh/2: type 10b, type 11b, no response, long response, Aborts.
pub const PLAIN: u32 = 0x0D1A;
pub const BUSY: u32 = 0x071B;
pub const SILENT: u32 = 0x0000;
pub const LONG: u32 = 0x0209;
pub const ABORT: u32 = 0x0CDA;
pub const ABORT_BUSY: u32 = 0x0CDB;

pub const TRAN: u8 = 0x21;
pub const LINK: u8 = 0x31;
pub const NOP: u8 = 0x01;
pub const END: u8 = 0x02;
pub const INT: u8 = 0x04;

/// Status bits as `Seen::raised` and the word at 030h have them.
pub const COMMAND_COMPLETE: u32 = 1;
pub const TRANSFER_COMPLETE: u32 = 2;
pub const DMA_INTERRUPT: u32 = 8;
pub const CARD_INTERRUPT: u32 = 0x100;
pub const ANY_ERROR: u32 = 0x8000;
pub const ADMA_ERROR: u32 = 1 << 25;

fn plain(kind: u8, detail: u8) -> Step {
    Step {
        kind,
        detail,
        offset: 0,
        words: [0; 4],
    }
}

pub fn write(offset: u16, width: u8, value: u32) -> Step {
    Step {
        kind: 0,
        detail: width,
        offset,
        words: [value, 0, 0, 0],
    }
}

pub fn read(offset: u16, width: u8) -> Step {
    Step {
        offset,
        ..plain(1, width)
    }
}

pub fn card_in() -> Step {
    plain(2, 0)
}

pub fn card_out() -> Step {
    plain(3, 0)
}

pub fn response(detail: u8, words: [u32; 4]) -> Step {
    Step {
        words,
        ..plain(4, detail)
    }
}

pub fn good() -> Step {
    response(0, [0x900, 0, 0, 0])
}

pub fn failed(detail: u8) -> Step {
    response(detail, [0; 4])
}

pub fn given() -> Step {
    plain(5, 0)
}

pub fn taken() -> Step {
    plain(6, 0)
}

pub fn busy_over() -> Step {
    plain(7, 0)
}

pub fn data_error(detail: u8) -> Step {
    plain(8, detail)
}

pub fn level(detail: u8) -> Step {
    plain(9, detail)
}

pub fn turn() -> Step {
    plain(10, 0)
}

/// A line's eight bytes.
pub fn line(first: u8, length: u16, address: u32) -> [u8; 8] {
    let [low, high] = length.to_le_bytes();
    let [a0, a1, a2, a3] = address.to_le_bytes();
    [first, 0, low, high, a0, a1, a2, a3]
}

/// Memory of a length with lines from address 0 on and counting bytes behind them.
pub fn table(length: usize, lines: &[[u8; 8]]) -> Vec<u8> {
    let mut memory: Vec<u8> = lines.concat();
    while memory.len() < length {
        memory.push(memory.len() as u8);
    }
    memory
}

/// The memory of the worked example.
pub fn example_memory() -> Vec<u8> {
    let mut memory = line(0x23, 8, 0x10).to_vec();
    memory.extend([0; 8]);
    memory.extend([0x11, 0x22, 0x33, 0x44, 0x55, 0x66, 0x77, 0x88]);
    memory
}

/// The run of the worked example.
pub fn example_run() -> RunFile {
    let steps = vec![
        card_in(),
        write(0x2C, 2, 5),
        write(0x29, 1, 0x0F),
        write(0x28, 1, 0x10),
        write(0x34, 4, 0x03FF_01FF),
        write(0x38, 4, 2),
        write(0x04, 4, 8),
        write(0x58, 4, 0),
        write(0x0C, 4, 0x183A_0001),
        read(0x24, 4),
        good(),
        turn(),
        turn(),
        taken(),
        read(0x30, 2),
        write(0x30, 2, 1),
        write(0x30, 2, 2),
    ];
    RunFile {
        memory: example_memory(),
        steps,
        card: Vec::new(),
    }
}

/// A machine that is asserted on at every step.
#[derive(Clone)]
pub struct Bench(pub Machine);

impl Bench {
    /// Power-on, no card.
    pub fn bare(memory: Vec<u8>, card: Vec<u8>) -> Bench {
        Bench(Machine::new(memory, card))
    }

    /// Card in, clock, power and ADMA2 on, all status enabled (Card Insertion came before).
    pub fn ready(memory: Vec<u8>, card: Vec<u8>) -> Bench {
        let mut bench = Bench::bare(memory, card);
        bench.all([
            card_in(),
            write(0x2C, 2, 5),
            write(0x29, 1, 0x0F),
            write(0x28, 1, 0x10),
            write(0x34, 4, 0x03FF_01FF),
        ]);
        bench
    }

    /// Ready, with a command issued after block size and count.
    pub fn issued(memory: Vec<u8>, card: Vec<u8>, size_count: u32, command: u32) -> Bench {
        let mut bench = Bench::ready(memory, card);
        bench.all([write(0x04, 4, size_count), write(0x0C, 4, command)]);
        bench
    }

    /// Ready, with a transfer whose response is in.
    pub fn running(memory: Vec<u8>, card: Vec<u8>, size_count: u32, command: u32) -> Bench {
        let mut bench = Bench::issued(memory, card, size_count, command);
        bench.done(good());
        bench
    }

    /// A step that has to be done; what was seen of it.
    pub fn seen(&mut self, step: Step) -> Seen {
        let seen = self.0.step(&step);
        assert_eq!(seen.answer, 0, "{step:?}");
        seen
    }

    /// A step that has to be done; its value.
    pub fn done(&mut self, step: Step) -> u32 {
        self.seen(step).value
    }

    pub fn all<const N: usize>(&mut self, steps: [Step; N]) {
        for step in steps {
            self.done(step);
        }
    }

    /// A step that has to be refused with a number, changing nothing.
    pub fn refused(&mut self, answer: u32, step: Step) {
        let before = self.0.clone();
        let seen = self.0.step(&step);
        assert_eq!((seen.answer, seen.value), (answer, 0), "{step:?}");
        assert_eq!((seen.raised, seen.fault, seen.resets), (0, None, 0));
        assert!(
            self.0 == before,
            "{step:?} was refused but changed something"
        );
    }

    pub fn word(&self, offset: u32) -> u32 {
        self.0.peek(offset)
    }

    pub fn state(&self) -> u32 {
        self.word(0x24)
    }

    pub fn status(&self) -> u32 {
        self.word(0x30)
    }

    /// The ADMA error byte.
    pub fn fault(&self) -> u32 {
        self.word(0x54)
    }

    /// The line address.
    pub fn at(&self) -> u32 {
        self.word(0x58)
    }

    /// The Block Count register.
    pub fn count(&self) -> u32 {
        self.word(0x04) >> 16
    }

    /// A turn that ends in an ADMA error, with the bytes it moved.
    pub fn fails(&mut self, fault: u8, moved: u32) -> Seen {
        let seen = self.seen(turn());
        assert_eq!((seen.fault, seen.value), (Some(fault), moved));
        assert_eq!(self.fault(), u32::from(fault));
        assert!(!self.0.running());
        seen
    }
}
