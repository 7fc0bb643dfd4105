//! Rooms, blocks and memory other than those that a run lends.

mod common;

use common::{line, table, turn, Bench, END, READ_ONE, TRAN, WRITE_ONE};
use reference::Machine;

/// A transfer of one block of eight bytes at 10h, its line in hand.
fn running(command: u32) -> Machine {
    let memory = table(24, &[line(TRAN | END, 8, 0x10)]);
    let mut bench = Bench::running(memory, Vec::new(), 8, command);
    bench.seen(turn());
    bench.0
}

#[test]
fn a_block_of_another_length_is_refused() {
    let mut machine = running(READ_ONE);
    for length in [0, 7, 9, 512] {
        assert_eq!(machine.given(&vec![1; length]).answer, 8);
        assert!(machine.buffer().is_empty());
    }
    assert_eq!(machine.given(&[5; 8]).value, 8);
    assert_eq!(machine.buffer(), [5; 8]);
    assert_eq!(machine.step(&turn()).value, 8);
    assert_eq!(machine.memory()[16..], [5; 8]);
}

#[test]
fn a_room_below_the_block_is_refused_and_a_longer_one_filled_at_its_front() {
    let mut machine = running(WRITE_ONE);
    assert_eq!(machine.step(&turn()).value, 8);
    let mut short = [0xEE; 7];
    assert_eq!(machine.taken_into(&mut short).answer, 8);
    assert_eq!(short, [0xEE; 7]);
    let mut long = [0xEE; 9];
    assert_eq!(machine.taken_into(&mut long).value, 8);
    assert_eq!(long, [16, 17, 18, 19, 20, 21, 22, 23, 0xEE]);
}

#[test]
fn memory_may_be_another_at_each_turn() {
    let mut machine = running(WRITE_ONE);
    assert_eq!(machine.turn_over(&mut vec![0; 16_777_217]).answer, 11);
    let mut other = vec![7; 16_777_216];
    assert_eq!(machine.turn_over(&mut other).value, 8);
    assert_eq!(machine.buffer(), [7; 8]);
    let mut machine = running(WRITE_ONE);
    let failed = machine.turn_within(23);
    assert_eq!((failed.answer, failed.fault), (0, Some(3)));
}

#[test]
fn a_line_reads_as_its_fields() {
    let line = [0x27, 0xFF, 0, 0, 0x13, 0, 0, 0x80];
    let flags = [true, true, true, false, true];
    assert_eq!(reference::read_line(&line), (flags, 65_536, 0x8000_0010));
    let nothing = ([false; 5], 65_536, 0);
    assert_eq!(reference::read_line(&line[..7]), nothing);
    assert_eq!(reference::read_line(&[]), nothing);
}
