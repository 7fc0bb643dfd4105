//! A whole ride: two blocks go from memory to the card along two descriptor lines, and one comes back. Each step prints what is
//! done, its answer and value, and the interrupt line after it. examples/ride.c is the same ride in C; both print
//! bench/sdhc/ride.out. The program plays the guest's driver, the monitor and the card at once.

use sdhc::{write_line, Answer, Line, Number, Response, Slot};

const MEMORY: usize = 64;
const BLOCK: usize = 8;
const BLOCKS: usize = 2;

struct Ride {
    slot: Slot,
    memory: [u8; MEMORY],
    card: [[u8; BLOCK]; BLOCKS],
    /// The block that the card takes or gives next.
    next: usize,
}

fn reason(number: Number) -> &'static str {
    match number {
        Number::Done => "done",
        Number::NotYet => "not yet",
        Number::NoTransfer => "no transfer",
        _ => "refused",
    }
}

fn up_or_down(line: bool) -> &'static str {
    if line {
        "up"
    } else {
        "down"
    }
}

fn show(what: &str, bytes: &[u8]) {
    print!("    {what}:");
    for byte in bytes {
        print!(" {byte:02X}");
    }
    println!();
}

impl Ride {
    /// Prints a step with its answer, and passes the answer on.
    fn tell(&self, what: &str, answer: Answer) -> Answer {
        let (number, line) = (answer.number, up_or_down(self.slot.line()));
        println!(
            "{what:46} {:2} {:11}  {:08X}  {line}",
            number as u32,
            reason(number),
            answer.value
        );
        answer
    }

    // ---- the guest's driver

    fn reads(&mut self, offset: u64, width: usize, name: &str) {
        let mut data = [0; 4];
        let answer = self.slot.mmio_read(offset, &mut data[..width]);
        self.tell(
            &format!("read  {offset:03X}h/{width}           {name}"),
            answer,
        );
    }

    fn writes(&mut self, offset: u64, width: usize, value: u32, name: &str) {
        let answer = self.slot.mmio_write(offset, &value.to_le_bytes()[..width]);
        self.tell(
            &format!("write {offset:03X}h/{width} {value:08X}  {name}"),
            answer,
        );
    }

    /// A Tran line is written where the driver keeps its table.
    fn lays(&mut self, at: usize, length: u32, address: u32, end: bool) {
        let line = Line {
            valid: true,
            end,
            int: false,
            act1: false,
            act2: true,
            length,
            address,
        };
        let answer = write_line(&mut self.memory[at..at + 8], line);
        let ending = if end { ", End" } else { "" };
        self.tell(
            &format!("line  {at:03X}h             {length} bytes at {address:03X}h{ending}"),
            answer,
        );
    }

    // ---- the monitor and the card

    fn answers(&mut self) {
        let answer = self.slot.respond(Response::Good, [0x900, 0, 0, 0]);
        self.tell("the card answers well, 00000900", answer);
    }

    fn takes(&mut self) -> Answer {
        let answer = self.slot.taken(&mut self.card[self.next]);
        self.tell("the card takes a block", answer);
        if answer.done() {
            show("it took", &self.card[self.next]);
            self.next += 1;
        }
        answer
    }

    fn gives(&mut self) -> Answer {
        let answer = self.slot.given(&self.card[self.next]);
        self.tell("the card gives a block", answer);
        if answer.done() {
            show("it gave", &self.card[self.next]);
            self.next += 1;
        }
        answer
    }

    fn turns(&mut self) -> Answer {
        let answer = self.slot.turn(&mut self.memory);
        self.tell("turn", answer)
    }

    /// The engine turns as far as it can, then it is the card's move, until the line is up or neither can go on.
    fn carries(&mut self, card: fn(&mut Ride) -> Answer) {
        while !self.slot.line() {
            if !self.turns().done() && !card(self).done() {
                return;
            }
        }
    }

    // ---- the ride

    fn starts(&mut self) {
        println!(
            "{:46} {:26}{}",
            "power on",
            "",
            up_or_down(self.slot.line())
        );
        let answer = self.slot.turn(&mut []);
        self.tell("turn, with no memory lent", answer);
        self.reads(0x024, 4, "present state");
        let answer = self.slot.card_in();
        self.tell("card in", answer);
        self.reads(0x024, 4, "present state");
        self.writes(0x02C, 2, 0x00000005, "clock");
        self.reads(0x02C, 2, "clock");
        self.writes(0x029, 1, 0x0000000F, "power");
        self.writes(0x028, 1, 0x00000010, "DMA select");
        self.writes(0x034, 4, 0x03FF01FF, "status enables");
        self.writes(0x038, 4, 0x00000002, "signal enables");
    }

    fn acknowledges(&mut self) {
        self.reads(0x030, 2, "status");
        self.writes(0x030, 2, 0x00000001, "clear Command Complete");
        self.writes(0x030, 2, 0x00000002, "clear Transfer Complete");
    }

    fn writes_two_blocks(&mut self) {
        println!("\ntwo blocks to the card");
        self.lays(0x000, 12, 0x020, false);
        self.lays(0x008, 4, 0x030, true);
        self.writes(0x004, 4, 0x00020008, "block size and count");
        self.writes(0x058, 4, 0x00000000, "table address");
        self.writes(0x00C, 4, 0x193A0023, "mode, command 25");
        self.reads(0x024, 4, "present state");
        self.turns();
        self.answers();
        self.next = 0;
        self.carries(Ride::takes);
        self.reads(0x006, 2, "block count");
        self.reads(0x058, 4, "table address");
        self.acknowledges();
    }

    fn reads_one_block(&mut self) {
        println!("\nthe second block back");
        self.lays(0x010, 8, 0x038, true);
        self.writes(0x058, 4, 0x00000010, "table address");
        self.writes(0x00C, 4, 0x113A0011, "mode, command 17");
        self.reads(0x024, 4, "present state");
        self.answers();
        self.next = 1;
        self.carries(Ride::gives);
        show("memory at 038h", &self.memory[0x038..0x040]);
        self.acknowledges();
    }
}

fn main() {
    let mut ride = Ride {
        slot: Slot::power_on(),
        memory: [0; MEMORY],
        card: [[0; BLOCK]; BLOCKS],
        next: 0,
    };
    let first = [
        0x11, 0x22, 0x33, 0x44, 0x55, 0x66, 0x77, 0x88, 0x99, 0xAA, 0xBB, 0xCC,
    ];
    let second = [0xDD, 0xEE, 0xFF, 0x00];
    ride.memory[0x020..0x02C].copy_from_slice(&first);
    ride.memory[0x030..0x034].copy_from_slice(&second);
    println!("{:46} {:14}  {:8}  line", "what is done", "answer", "value");
    ride.starts();
    ride.writes_two_blocks();
    ride.reads_one_block();
    let answer = ride.slot.card_out();
    ride.tell("card out", answer);
    ride.reads(0x024, 4, "present state");
}
